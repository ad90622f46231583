"""Draws how times grow with sizes, on logarithmic scales: a steeper line grows faster."""

import math

COLOURS = ["#0969da", "#cf222e", "#1a7f37", "#8250df", "#9a6700", "#57606a"]
WIDTH, HEIGHT, SIDE, GAP = 330, 300, 62, 24


def decades(values):
    return math.floor(math.log10(min(values))), math.ceil(math.log10(max(values)))


def short(power):
    value = 10 ** power
    return f"{value:g}" if power < 3 else f"{10 ** (power % 3)}{'kMG'[power // 3 - 1]}"


def straight(size):
    return size


def with_logarithm(size):
    return size * math.log(size)


def draw_panel(at, panel, grows):
    title, across, up, lines = panel
    left, right, top, bottom = at * (WIDTH + GAP) + SIDE, at * (WIDTH + GAP) + WIDTH, 46, HEIGHT - 46
    x0, x1 = decades([x for _, points in lines for x, _ in points])
    y0, y1 = decades([y for _, points in lines for _, y in points])

    def place(x, y):
        return (left + (math.log10(x) - x0) / (x1 - x0) * (right - left),
                bottom - (math.log10(y) - y0) / (y1 - y0) * (bottom - top))

    out = [f'  <text x="{left}" y="20" font-weight="bold">{title}</text>',
           f'  <text x="{left}" y="38" fill="#57606a">{up}</text>',
           f'  <text x="{right}" y="{HEIGHT - 8}" fill="#57606a" text-anchor="end">{across}</text>',
           f'  <rect x="{left}" y="{top}" width="{right - left}" height="{bottom - top}" fill="none" stroke="#d0d7de"/>']
    for power in range(x0, x1 + 1):
        x, _ = place(10 ** power, 10 ** y0)
        out.append(f'  <path d="M{x:.0f} {top} V{bottom}" stroke="#eaeef2"/><text x="{x:.0f}" y="{bottom + 16}" text-anchor="middle" fill="#57606a">{short(power)}</text>')
    for power in range(y0, y1 + 1):
        _, y = place(10 ** x0, 10 ** power)
        out.append(f'  <path d="M{left} {y:.0f} H{right}" stroke="#eaeef2"/><text x="{left - 6}" y="{y + 4:.0f}" text-anchor="end" fill="#57606a">{short(power)}</text>')
    for number, (name, points) in enumerate(lines):
        colour = COLOURS[number % len(COLOURS)]
        first, last = points[0], points[-1]
        end = first[1] * grows(last[0]) / grows(first[0])
        along = [place(*first), place(last[0], end)]
        if y0 <= math.log10(end) <= y1:
            out.append(f'  <path d="M{along[0][0]:.1f} {along[0][1]:.1f} L{along[1][0]:.1f} {along[1][1]:.1f}" stroke="#afb8c1" stroke-dasharray="2 3"/>')
        spots = [place(*it) for it in points]
        out.append(f'  <path d="M{" L".join(f"{x:.1f} {y:.1f}" for x, y in spots)}" fill="none" stroke="{colour}" stroke-width="2"/>')
        out += [f'  <circle cx="{x:.1f}" cy="{y:.1f}" r="3" fill="{colour}"/>' for x, y in spots]
        out.append(f'  <text x="{left + 8}" y="{top + 16 + 15 * number}" fill="{colour}">{name}</text>')
    return out


def drawing(panels, grows=straight):
    """The SVG of some panels, each its title, the names of both axes, and its lines as (name, points). A grey line from the
    first point of each grows as `grows` does."""
    width = len(panels) * (WIDTH + GAP)
    out = [f'<svg xmlns="http://www.w3.org/2000/svg" viewBox="0 0 {width} {HEIGHT}" width="{width}" height="{HEIGHT}" '
           'font-family="Helvetica, Arial, sans-serif" font-size="12" role="img" aria-labelledby="title">',
           '  <title id="title">How times grow with sizes</title>', f'  <rect width="{width}" height="{HEIGHT}" fill="#ffffff"/>']
    for at, panel in enumerate(panels):
        out += draw_panel(at, panel, grows)
    return "\n".join([*out, "</svg>", ""])
