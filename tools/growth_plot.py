"""The picture of tools/growth: a panel for each kind of work and axis, both sides in each, on linear axes from 0."""
import math

COLOURS = ["#c2410c", "#1d4ed8"]
NAMES = ["original (Rust)", "port (exported calls)"]
COLUMNS = 4
LEFT, TOP = 12, 62                  # of the first panel
WIDE, HIGH = 262, 210               # of a panel with its labels
INNER = (46, 42, 204, 124)          # of its plot: left, top, width, height
SECTION = 26                        # above each half


def text(x, y, words, size=11, anchor="start", more=""):
    return '<text x="%.1f" y="%.1f" font-size="%d" text-anchor="%s"%s>%s</text>' % (x, y, size, anchor, more, words)


def line(x1, y1, x2, y2, colour, more=""):
    return '<line x1="%.1f" y1="%.1f" x2="%.1f" y2="%.1f" stroke="%s"%s/>' % (x1, y1, x2, y2, colour, more)


def step(most):
    """The distance of the ticks: 3 to 6 of them, at 1, 2 or 5 times a power of ten."""
    power = 10 ** math.floor(math.log10(most))
    return next(power * part for part in (0.2, 0.5, 1, 2) if most / (power * part) <= 5)


def mark(side, x, y):
    if side == 0:
        return '<circle cx="%.1f" cy="%.1f" r="3.2" fill="%s"/>' % (x, y, COLOURS[0])
    return '<rect x="%.1f" y="%.1f" width="6" height="6" fill="%s"/>' % (x - 3, y - 3, COLOURS[1])


def curve(side, places):
    """The points of a side, joined, and the straight line from the first to the last of them."""
    joined = " ".join("%.1f,%.1f" % place for place in places)
    chord = line(*places[0], *places[-1], COLOURS[side], ' stroke-dasharray="2 3" stroke-width="0.9"')
    path = '<polyline points="%s" fill="none" stroke="%s" stroke-width="1.6"/>' % (joined, COLOURS[side])
    return [chord, path] + [mark(side, *place) for place in places]


def panel(x, y, series, axis):
    left, top, wide, high = x + INNER[0], y + INNER[1], INNER[2], INNER[3]
    most = max(max(series.times(side)) for side in (0, 1))
    unit, scale = ("µs", 1000) if most >= 5000 else ("ns", 1)
    apart = step(most / scale)
    highest = apart * math.ceil(most / scale / apart)
    sizes = series.sizes()

    def place(size, time):
        return left + wide * size / sizes[-1], top + high * (1 - time / scale / highest)

    made = [text(x + 6, y + 14, series.work, 12, "start", ' font-weight="bold"'), text(x + 6, y + 29, unit + " a call", 10)]
    for k in range(round(highest / apart) + 1):
        at = top + high * (1 - k * apart / highest)
        made += [line(left, at, left + wide, at, "#d4d4d4"), text(left - 5, at + 3.5, "{:,g}".format(k * apart), 10, "end")]
    for size in [sizes[0]] + sizes[2:]:
        at = place(size, 0)[0]
        made += [line(at, top + high, at, top + high + 4, "#525252"), text(at, top + high + 15, "{:,}".format(size), 10, "middle")]
    made += [line(left, top, left, top + high, "#525252"), line(left, top + high, left + wide, top + high, "#525252")]
    made.append(text(left + wide / 2, top + high + 29, axis, 10, "middle"))
    for side in (0, 1):
        made += curve(side, [place(size, time) for size, time in zip(sizes, series.times(side))])
    return made


def half(y, title, series, axis):
    """One axis: its title and its panels; and where the next may start."""
    made = [text(LEFT + 6, y + 14, title, 14, "start", ' font-weight="bold"')]
    for k, one in enumerate(series):
        made += panel(LEFT + WIDE * (k % COLUMNS), y + SECTION + HIGH * (k // COLUMNS), one, axis)
    return made, y + SECTION + HIGH * math.ceil(len(series) / COLUMNS)


def legend():
    made = [text(LEFT + 6, 26, "Time of a call as the buffer grows", 17, "start", ' font-weight="bold"')]
    for side, x in ((0, 360), (1, 500)):
        made += [line(x, 21, x + 26, 21, COLOURS[side], ' stroke-width="1.6"'), mark(side, x + 13, 21), text(x + 32, 25, NAMES[side], 12)]
    made.append(line(672, 21, 698, 21, "#525252", ' stroke-dasharray="2 3" stroke-width="0.9"'))
    return made + [text(704, 25, "straight line from the first point to the last", 12)]


def drawn(by_messages, by_accounts):
    """The whole picture as SVG."""
    first, below = half(TOP - 16, "64 to 1,024 messages, four of each account", by_messages, "messages")
    second, end = half(below + 14, "16 to 256 accounts, 1,024 messages", by_accounts, "accounts")
    wide, high = 2 * LEFT + WIDE * COLUMNS, end + 6
    head = '<svg xmlns="http://www.w3.org/2000/svg" width="%d" height="%d" viewBox="0 0 %d %d" font-family="sans-serif" fill="#171717">'
    whole = [head % (wide, high, wide, high), '<rect width="%d" height="%d" fill="#ffffff"/>' % (wide, high)]
    return "\n".join(whole + legend() + first + second + ["</svg>"]) + "\n"
