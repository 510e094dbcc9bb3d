"""A chart of lines as SVG, whose text is the same for the same figures."""

WIDTH, HEIGHT, LEFT, RIGHT, TOP, BOTTOM = 640, 360, 64, 190, 36, 48
COLOURS = ("#1b6ca8", "#c0392b", "#2e7d32", "#8e5ea2")


def ticks(most):
    """Round numbers from 0 to the most one or above."""
    step = 1
    while most / step > 6:
        step = step * 5 // 2 if str(step)[0] == "2" else step * 2
    return [step * n for n in range(int(most / step) + 2)]


def chart(place, title, across, up, values, lines):
    """Writes a picture: one line for each name, over the same values."""
    marks = ticks(max(max(it) for _, it in lines))
    wide, high = WIDTH - LEFT - RIGHT, HEIGHT - TOP - BOTTOM

    def x(value):
        return LEFT + wide * value / values[-1]

    def y(value):
        return HEIGHT - BOTTOM - high * value / marks[-1]

    out = [f'<svg xmlns="http://www.w3.org/2000/svg" width="{WIDTH}" height="{HEIGHT}" font-family="sans-serif" font-size="12">',
           f'<rect width="{WIDTH}" height="{HEIGHT}" fill="white"/>', f'<text x="{LEFT}" y="20" font-size="14">{title}</text>']
    for mark in marks:
        out.append(f'<path d="M{LEFT} {y(mark):.1f}H{LEFT + wide}" stroke="#ddd"/>')
        out.append(f'<text x="{LEFT - 8}" y="{y(mark) + 4:.1f}" text-anchor="end">{mark}</text>')
    for value in values:
        out.append(f'<text x="{x(value):.1f}" y="{HEIGHT - BOTTOM + 18}" text-anchor="middle">{value}</text>')
    out.append(f'<text x="{LEFT + wide / 2:.1f}" y="{HEIGHT - 10}" text-anchor="middle">{across}</text>')
    out.append(f'<text x="14" y="{TOP - 4}">{up}</text>')
    for place_in_list, (name, measured) in enumerate(lines):
        colour = COLOURS[place_in_list % len(COLOURS)]
        points = " ".join(f"{x(value):.1f},{y(it):.1f}" for value, it in zip(values, measured))
        out.append(f'<polyline points="{points}" fill="none" stroke="{colour}" stroke-width="2"/>')
        out += [f'<circle cx="{x(value):.1f}" cy="{y(it):.1f}" r="3" fill="{colour}"/>' for value, it in zip(values, measured)]
        out.append(f'<text x="{LEFT + wide + 12}" y="{TOP + 14 + 18 * place_in_list}" fill="{colour}">{name}</text>')
    place.write_text("\n".join(out + ["</svg>\n"]))
