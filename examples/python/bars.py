"""A picture of radii and their shares, as SVG: above how large each radius is, below what it is made of."""

from math import log10

# carried, rounding, swept, slack: a name, a colour, and whether text on it is light.
PARTS = [("carried", "#4477aa", True), ("rounding", "#ee6677", False), ("swept", "#ccbb44", False),
         ("slack", "#bbbbbb", False)]
WIDTH, HEIGHT = 900, 640
LEFT, RIGHT = 90, 20
RADII_TOP, RADII_BOTTOM = 80, 270
PARTS_TOP, PARTS_BOTTOM = 350, 570
# The radii stand on a scale of powers of ten, from 1 to 10^6 units.
POWERS = 6
# A part below this share of its bar has no room for its number.
LEAST_NUMBERED = 0.07


def text(x, y, words, anchor="middle", size=12, fill="#222222", more=""):
    return f'<text x="{x:.1f}" y="{y:.1f}" text-anchor="{anchor}" font-size="{size}" fill="{fill}"{more}>{words}</text>'


def rectangle(x, y, width, height, fill):
    return f'<rect x="{x:.1f}" y="{y:.1f}" width="{width:.1f}" height="{height:.1f}" fill="{fill}"/>'


def grid(y, label):
    line = f'<line x1="{LEFT}" y1="{y:.1f}" x2="{WIDTH - RIGHT}" y2="{y:.1f}" stroke="#dddddd"/>'
    return [line, text(LEFT - 8, y + 4, label, "end")]


def upright(y, words):
    return text(22, y, words, size=13, more=f' transform="rotate(-90 22 {y:.1f})"')


def radius_height(radius):
    return (RADII_BOTTOM - RADII_TOP) * log10(max(radius, 1)) / POWERS


def legend():
    x = LEFT
    for name, colour, _ in PARTS:
        yield rectangle(x, PARTS_TOP - 30, 14, 14, colour)
        yield text(x + 20, PARTS_TOP - 18, name, "start", 13)
        x += 110


def radius_bar(x, width, radius):
    height = radius_height(radius)
    yield rectangle(x, RADII_BOTTOM - height, width, height, "#777777")
    # A white rim keeps the number apart from the lines behind it.
    yield text(x + width / 2, RADII_BOTTOM - height - 5, f"{radius:,}",
               more=' paint-order="stroke" stroke="#ffffff" stroke-width="4"')


def parted_bar(x, width, row):
    """One part on the other, the first at the bottom; a part with room has its number of percent."""
    whole = max(sum(row), 1)
    y = float(PARTS_BOTTOM)
    for share, (_, colour, light) in zip(row, PARTS):
        height = (PARTS_BOTTOM - PARTS_TOP) * share / whole
        y -= height
        yield rectangle(x, y, width, height, colour)
        if share >= LEAST_NUMBERED * whole:
            yield text(x + width / 2, y + height / 2 + 4, f"{100 * share / whole:.0f}",
                       fill="#ffffff" if light else "#222222")


def picture(orders, costs):
    """The SVG for the radius and the four shares of each order."""
    lines = [f'<svg xmlns="http://www.w3.org/2000/svg" viewBox="0 0 {WIDTH} {HEIGHT}" font-family="sans-serif">',
             rectangle(0, 0, WIDTH, HEIGHT, "#ffffff"),
             text(LEFT, 34, "What an order costs: the radius of the last step, and where it came from", "start", 18)]
    for power in range(POWERS + 1):
        y = RADII_BOTTOM - (RADII_BOTTOM - RADII_TOP) * power / POWERS
        lines += grid(y, f"{10 ** power:,}")
    for percent in range(0, 101, 25):
        lines += grid(PARTS_BOTTOM - (PARTS_BOTTOM - PARTS_TOP) * percent / 100, f"{percent} %")
    lines += [upright((RADII_TOP + RADII_BOTTOM) / 2, "radius, units"),
              upright((PARTS_TOP + PARTS_BOTTOM) / 2, "share of the radius")]
    lines += legend()
    step = (WIDTH - LEFT - RIGHT) / len(costs)
    for place, (order, (radius, row)) in enumerate(zip(orders, costs)):
        x = LEFT + step * (place + 0.1)
        lines += radius_bar(x, 0.8 * step, radius)
        lines += parted_bar(x, 0.8 * step, row)
        for bottom in (RADII_BOTTOM, PARTS_BOTTOM):
            lines.append(text(x + 0.4 * step, bottom + 18, order))
    lines += [text((LEFT + WIDTH - RIGHT) / 2, PARTS_BOTTOM + 42, "order", size=13), "</svg>", ""]
    return "\n".join(lines)
