"""Draws the demonstration: octets of each user over time, what happened when, and what was counted. Python 3.8."""

WIDE, HIGH, LEFT, TOP, BOTTOM = 960, 470, 70, 110, 300
COLOURS = ("#1f6fb2", "#c4582b")


def text(x, y, words, size=13, anchor="start", colour="#222", more=""):
    words = str(words).replace("&", "&amp;").replace("<", "&lt;")
    return f'<text x="{x:.0f}" y="{y:.0f}" font-size="{size}" text-anchor="{anchor}" fill="{colour}" {more}>{words}</text>'


def line(x1, y1, x2, y2, colour="#ccc", more=""):
    return f'<line x1="{x1:.1f}" y1="{y1:.1f}" x2="{x2:.1f}" y2="{y2:.1f}" stroke="{colour}" {more}/>'


def rates(samples, step=0.25):
    """Octets a second, in steps."""
    found, last = [], samples[0]
    for sample in samples:
        if sample[0] - last[0] >= step:
            found.append((sample[0], (sample[1] - last[1]) / (sample[0] - last[0])))
            last = sample
    return found


def chart(curves, marks):
    series = [(name, rates(samples)) for name, samples in curves]
    most = max(rate for _, points in series for _, rate in points) * 1.05
    begin, end = min(at for at, _ in marks) - 0.5, max(at for at, _ in marks) + 0.5

    def x(at):
        return LEFT + (WIDE - LEFT - 30) * min(max(at - begin, 0) / (end - begin), 1)

    def y(rate):
        return BOTTOM - (BOTTOM - TOP) * rate / most

    drawn = []
    for part in range(5):
        rate = most * part / 4
        drawn += [line(LEFT, y(rate), WIDE - 30, y(rate)), text(LEFT - 8, y(rate) + 4, f"{rate / 1e6:.1f}", 11, "end")]
    drawn += [text(x(at), BOTTOM + 16, f"{at} s", 11, "middle") for at in range(int(begin) + 1, int(end) + 1, 2)]
    for place, (at, mark) in enumerate(sorted(marks)):
        up = TOP - 12 - 14 * (place % 4)
        is_right = x(at) > 0.8 * WIDE
        drawn += [line(x(at), up + 3, x(at), BOTTOM, "#888", 'stroke-dasharray="3 3"'),
                  text(x(at) + (-3 if is_right else 3), up + 2, mark, 11, "end" if is_right else "start")]
    for colour, (name, points) in zip(COLOURS, series):
        path = " ".join(f"{x(at):.1f},{y(rate):.1f}" for at, rate in points)
        drawn.append(f'<polyline points="{path}" fill="none" stroke="{colour}" stroke-width="2"/>')
    for place, (colour, (name, _)) in enumerate(zip(COLOURS, series)):
        drawn += [line(WIDE - 130, 24 + 16 * place, WIDE - 106, 24 + 16 * place, colour, 'stroke-width="2"'),
                  text(WIDE - 100, 28 + 16 * place, name, 12)]
    return drawn + [text(LEFT - 8, TOP - 12, "MB/s", 11, "end")]


def table(rows):
    heads = ("", "address", "octets of its device", "dropped by the gateway", "told to the PCRF", "of the key video")
    places = (LEFT, 150, 430, 600, 750, WIDE - 50)
    drawn = [text(x, BOTTOM + 60, head, 12, "end" if place > 1 else "start", "#666")
             for place, (x, head) in enumerate(zip(places, heads))]
    drawn.append(line(LEFT, BOTTOM + 68, WIDE - 50, BOTTOM + 68))
    for number, row in enumerate(rows):
        for place, (x, cell) in enumerate(zip(places, row)):
            words = cell if place < 2 else f"{cell:,}"
            drawn.append(text(x, BOTTOM + 90 + 22 * number, words, 13, "end" if place > 1 else "start",
                              COLOURS[number] if place == 0 else "#222"))
    equal = all(seen - dropped == told for _, _, seen, dropped, told, _ in rows)
    drawn.append(text(LEFT, BOTTOM + 145, "What passed and what the PCRF was told of are the same, octet for octet." if equal
                      else "What passed and what the PCRF was told of differ.", 13, colour="#222"))
    return drawn


def draw(path, curves, marks, rows):
    drawn = chart(curves, marks) + table(rows)
    with open(path, "w", encoding="utf-8") as file:
        file.write(f'<svg xmlns="http://www.w3.org/2000/svg" viewBox="0 0 {WIDE} {HIGH}" font-family="sans-serif">\n'
                   f'<rect width="{WIDE}" height="{HIGH}" fill="#fff"/>\n'
                   + text(LEFT, 32, "A PCRF, a gateway, two users", 18) + "\n" + "\n".join(drawn) + "\n</svg>\n")
