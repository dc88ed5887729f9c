"""Pictures by matplotlib: the band of a result, where radii came from, ranges by depth.

Each picture is drawn from data that a function of its own makes, whole numbers in units but for names; the data can be
stored beside the picture. A band is drawn by proved columns: for each piece of an axis the range of the model with that
piece put in, so that nothing between samples is left out.
"""

from __future__ import annotations

import json
from collections.abc import Sequence
from fractions import Fraction
from pathlib import Path
from typing import Any

from .bench import put_in
from .calls import cut_range, range_of, substitute
from .limits import MOST_DEPTH, MOST_ORDER, UNIT
from .models import Model
from .numbers import outward
from .report import PARTS, Outcome, cut_name
from .text import needed

MOST_COLUMNS = 1024
BLUE, RED, YELLOW, GREY = "#4477aa", "#ee6677", "#ccbb44", "#bbbbbb"
COLOURS = dict(zip(PARTS, (BLUE, RED, YELLOW, GREY)))
# The same picture has the same bytes: no date, no random names, no program's version.
SETTINGS = {"svg.hashsalt": "hechroung", "svg.fonttype": "none", "font.family": "DejaVu Sans", "font.size": 11,
            "axes.grid": True, "grid.color": "#dddddd", "axes.axisbelow": True, "axes.spines.top": False,
            "axes.spines.right": False}
METADATA = {".svg": {"Date": None, "Creator": None}, ".png": {"Software": None}}


# ---- data


def tested_columns(count: int) -> int:
    """A number of pieces whose ends are whole units."""
    if count not in [1 << power for power in range(MOST_COLUMNS.bit_length())]:
        raise ValueError(f"columns are a power of two up to {MOST_COLUMNS}, and not {count}")
    return count


def columns(model: Model, i: int, count: int) -> dict[str, list[int]]:
    """The proved columns of a model along variable i.

    These are equal pieces of -1 to 1, for each the range with the piece put in, as far as it lies in the range of all,
    and the radius with the piece put in, which is the half width of the band there.
    """
    half = UNIT // tested_columns(count)
    own = tuple(int(place == i) for place in range(1, model.n + 1))
    pieces = []
    for j in range(count):
        piece = Model.of(model.n, {(): -UNIT + (2 * j + 1) * half, own: half})
        pieces.append(substitute(MOST_ORDER, i, model, piece))
    whole, ranges = range_of(model), [range_of(piece) for piece in pieces]
    return {"edges": [-UNIT + 2 * j * half for j in range(count + 1)],
            "low": [max(ends.low, whole.low) for ends in ranges],
            "high": [min(ends.high, whole.high) for ends in ranges], "half_width": [piece.radius for piece in pieces]}


def band_data(outcome: Outcome, along: str, fixed: dict[str, Fraction], count: int) -> dict[str, Any]:
    """The band of the result along one variable, the others fixed."""
    names = outcome.loaded.variables
    numbers = {name: number for number, name in enumerate(names, 1)}
    at = put_in(outcome.summary.model, {numbers[name]: value for name, value in fixed.items()})
    return {"picture": "band", "result": outcome.loaded.result, "along": along,
            "fixed": {name: str(value) for name, value in fixed.items()}, **columns(at, numbers[along], count)}


def shares_data(outcome: Outcome) -> dict[str, Any]:
    """The radius of each step that has one, and its four shares, which sum to UNIT times it."""
    rows = [(name, row) for name, row in outcome.rows if sum(row)]
    return {"picture": "shares", "result": outcome.loaded.result, "steps": [name for name, _ in rows],
            "radius": [sum(row) // UNIT for _, row in rows],
            "shares": {part: [row[k] for _, row in rows] for k, part in enumerate(PARTS)}}


def depths_data(outcome: Outcome, along: str, count: int) -> dict[str, Any]:
    """The range of the result with one variable cut to depths 0 to 6, and its columns over the whole box."""
    model = outcome.summary.model
    i = outcome.loaded.variables.index(along) + 1
    ranges = [cut_range(MOST_ORDER, i, depth, model) for depth in range(MOST_DEPTH + 1)]
    return {"picture": "depths", "result": outcome.loaded.result, "along": along,
            "ranges": [list(ends) for ends in ranges], **columns(model, i, count)}


def stored(data: dict[str, Any]) -> str:
    """The data of a picture as JSON, a line for each name."""
    lines = [f"{json.dumps(name)}: {json.dumps(held, ensure_ascii=False)}" for name, held in data.items()]
    return "{\n " + ",\n ".join(lines) + "\n}\n"


# ---- pictures


def tested_suffix(path: str | Path) -> str:
    """The suffix of a picture's path; ValueError where it is none that can be drawn."""
    suffix = Path(path).suffix
    if suffix not in METADATA:
        raise ValueError(f"a picture is stored as .png or .svg, and '{path}' is neither")
    return suffix


def save(data: dict[str, Any], path: str | Path) -> None:
    """Draws data and stores the picture; the suffix of the path, .png or .svg, says how."""
    suffix = tested_suffix(path)
    try:
        import matplotlib
    except ImportError:
        raise needed("matplotlib", "python3-matplotlib") from None
    with matplotlib.rc_context({**matplotlib.rcParamsDefault, **SETTINGS}):
        from matplotlib.backends.backend_agg import FigureCanvasAgg
        from matplotlib.figure import Figure

        figure = Figure(figsize=(9, 6), dpi=100, layout="constrained")
        FigureCanvasAgg(figure)
        {"band": draw_band, "shares": draw_shares, "depths": draw_depths}[data["picture"]](figure, data)
        figure.savefig(path, metadata=METADATA[suffix])


def _numbers(units: Sequence[int]) -> list[float]:
    return [value / UNIT for value in units]


def _stairs(axes: Any, data: dict[str, Any]) -> None:
    # The rim shows a column that is thinner than a dot of the picture.
    axes.stairs(_numbers(data["high"]), _numbers(data["edges"]), baseline=_numbers(data["low"]), fill=True,
                facecolor=BLUE, edgecolor=BLUE, linewidth=0.8)
    axes.set_xlim(-1, 1)
    _room(axes, min(data["low"]), max(data["high"]))


def _room(axes: Any, low: int, high: int) -> None:
    """Leaves a little free above and below."""
    free = 0.08 * max(high - low, 1)
    axes.set_ylim((low - free) / UNIT, (high + free) / UNIT)


def draw_band(figure: Any, data: dict[str, Any]) -> None:
    """Above the band; below its half width, since a narrow band is a line."""
    above, below = figure.subplots(2, sharex=True, height_ratios=[3, 2])
    fixed = ", ".join(f"{name} = {_decimal(value)}" for name, value in data["fixed"].items())
    count = len(data["low"])
    above.set_title(f"{data['result']} along {data['along']}" + (f" at {fixed}" if fixed else ""), loc="left")
    _stairs(above, data)
    above.set_ylabel(data["result"])
    edges = _numbers(data["edges"])
    below.stairs(_numbers(data["half_width"]), edges, color=RED, linewidth=1.5, baseline=None)
    below.set_ylim(0, 1.25 * max([*_numbers(data["half_width"]), 1 / UNIT]))
    below.set_ylabel("half width")
    below.set_xlabel(f"{data['along']}  ({count} columns: each holds the whole band over its piece)")
    below.ticklabel_format(axis="y", style="plain", useOffset=False)


def _decimal(text: str) -> str:
    """A fraction as a decimal, where it is one of few places."""
    value = Fraction(text)
    return f"{float(value):g}" if Fraction(f"{float(value):g}") == value else text


def draw_shares(figure: Any, data: dict[str, Any]) -> None:
    """Above how large each radius is, below what it is made of."""
    above, below = figure.subplots(2, sharex=True)
    places = range(len(data["steps"]))
    above.set_title(f"{data['result']}: the radius of each step, and where it came from", loc="left")
    above.bar(places, _numbers(data["radius"]), color="#777777")
    above.set_ylabel("radius")
    above.set_yscale("log")
    bottom = [0.0 for _ in places]
    for part in PARTS:
        heights = [100 * share / (UNIT * radius) for share, radius in zip(data["shares"][part], data["radius"])]
        below.bar(places, heights, bottom=bottom, color=COLOURS[part], label=part)
        bottom = [low + height for low, height in zip(bottom, heights)]
    below.set_ylabel("share of the radius, %")
    below.set_xticks(places, [cut_name(name) for name in data["steps"]], rotation=30 if len(places) > 6 else 0,
                     ha="right" if len(places) > 6 else "center")
    below.set_ylim(0, 100)
    below.legend(loc="lower center", bbox_to_anchor=(0.5, 1), ncol=len(PARTS), frameon=False)


def draw_depths(figure: Any, data: dict[str, Any]) -> None:
    """On the left the columns over the box, on the right a bar from the low to the high end of each range."""
    left, right = figure.subplots(1, 2, sharey=True, width_ratios=[2, 3])
    figure.suptitle(f"{data['result']}: its range with {data['along']} cut into 1 to {1 << MOST_DEPTH} pieces")
    _stairs(left, data)
    left.set_xlabel(data["along"])
    left.set_ylabel(data["result"])
    for depth, (low, high) in enumerate(data["ranges"]):
        tight = depth == len(data["ranges"]) - 1
        right.bar(depth, (high - low) / UNIT, bottom=low / UNIT, color=YELLOW if tight else GREY)
        down, up = outward(low, high, 3)
        for words, value, align, offset in ((up, high, "bottom", 3), (down, low, "top", -3)):
            right.annotate(f"{words:f}", (depth, value / UNIT), (0, offset), textcoords="offset points", ha="center",
                           va=align, fontsize=9)
    right.set_xlabel("depth")
    _room(right, *data["ranges"][0])
