"""A picture of a curve and of its ranges by depth, as SVG: on the left the curve with its radius, on the right one bar
from the low to the high end of each range. Both have one scale."""

from bars import rectangle, text
from hechroung import UNIT

WIDTH, HEIGHT = 900, 480
TOP, BOTTOM = 70, 420
CURVE_LEFT, CURVE_RIGHT = 80, 400
BARS_LEFT, BARS_RIGHT = 450, 880
CURVE, BAR, TIGHT = "#4477aa", "#bbbbbb", "#ccbb44"


def scale(ranges):
    """Where a number of units stands, from top to bottom; a tenth of the widest range is left free on both sides."""
    low, high = min(low for low, _ in ranges), max(high for _, high in ranges)
    free = (high - low) // 10

    def height(units):
        return TOP + (BOTTOM - TOP) * (high + free - units) / (high - low + 2 * free)

    return height


def line(x1, y1, x2, y2, colour, more=""):
    return f'<line x1="{x1:.1f}" y1="{y1:.1f}" x2="{x2:.1f}" y2="{y2:.1f}" stroke="{colour}"{more}/>'


def grid(ranges, height):
    """A line for each half between the ends of the widest range."""
    low, high = min(low for low, _ in ranges), max(high for _, high in ranges)
    for half in range(-(-2 * low // UNIT), 2 * high // UNIT + 1):
        y = height(half * UNIT // 2)
        yield line(CURVE_LEFT, y, BARS_RIGHT, y, "#dddddd")
        yield text(CURVE_LEFT - 8, y + 4, f"{half / 2:.1f}", "end")


def drawn(points, values, height):
    """The curve with its radius, which is thinner than the line, and the two ends of what is seen of it."""
    across = [CURVE_LEFT + (CURVE_RIGHT - CURVE_LEFT) * (x + UNIT) / (2 * UNIT) for x in points]
    middles = [(low + high) // 2 for low, high in values]
    places = " ".join(f"{x:.1f},{height(y):.1f}" for x, y in zip(across, middles))
    yield f'<polyline points="{places}" fill="none" stroke="{CURVE}" stroke-width="2"/>'
    for end in (min(middles), max(middles)):
        yield line(CURVE_LEFT, height(end), BARS_RIGHT, height(end), CURVE, ' stroke-dasharray="4 3"')
    for x, label in ((CURVE_LEFT, "-1"), ((CURVE_LEFT + CURVE_RIGHT) / 2, "0"), (CURVE_RIGHT, "1")):
        yield text(x, BOTTOM + 18, label)


def bars(ranges, height):
    step = (BARS_RIGHT - BARS_LEFT) / len(ranges)
    for depth, (low, high) in enumerate(ranges):
        x = BARS_LEFT + step * (depth + 0.15)
        colour = TIGHT if depth == len(ranges) - 1 else BAR
        yield rectangle(x, height(high), 0.7 * step, height(low) - height(high), colour)
        for y, end in ((height(high) - 6, high), (height(low) + 15, low)):
            yield text(x + 0.35 * step, y, f"{end / UNIT:.3f}",
                       more=' paint-order="stroke" stroke="#ffffff" stroke-width="4"')
        yield text(x + 0.35 * step, BOTTOM + 18, depth)


def picture(points, values, ranges):
    """The SVG for the values of a curve at points and its range at each depth from 0 on."""
    height = scale(ranges)
    middle_of_bars = (BARS_LEFT + BARS_RIGHT) / 2
    lines = [f'<svg xmlns="http://www.w3.org/2000/svg" viewBox="0 0 {WIDTH} {HEIGHT}" font-family="sans-serif">',
             rectangle(0, 0, WIDTH, HEIGHT, "#ffffff"),
             text(CURVE_LEFT, 34, "What cutting the box gives: the range of one curve at depths 0 to 6", "start", 18)]
    lines += grid(ranges, height)
    lines += bars(ranges, height)
    lines += drawn(points, values, height)
    lines += [text((CURVE_LEFT + CURVE_RIGHT) / 2, BOTTOM + 42, "x", size=13),
              text(middle_of_bars, BOTTOM + 42, "depth", size=13), "</svg>", ""]
    return "\n".join(lines)
