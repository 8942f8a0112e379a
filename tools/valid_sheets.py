"""Valid random sheets, of shapes that each look for one corner of the rules.

A sheet is made as three sections, skip rows, messages and fills, each a list of lines, each line its numbers; `text_of` writes it."""
from replayed import MOST

LONGEST = 16384  # bytes
# Of each section: the most lines, and the most that each number of a line may be.
SECTIONS = [(64, (65535, 1, MOST)), (512, (1, MOST, 65535)), (64, (MOST, MOST, 1, MOST))]

COSTS = [0, 0, 1, 1, 2, 5, 100, 2 ** 32, 2 ** 63, MOST - 1, MOST]
ODD_NAMES = [0, 1, 7, 255, 256, 257, 32767, 32768, 65280, 65534, 65535]
# 17 and above are refused as slots or as a height; kept in 8, 16 or 32 bits, the last ones would not be.
ODD_SIZES = [0, 1, 15, 16, 16, 17, 17, 18, 64, 65, 255, 65535, MOST - 1, MOST, 2 ** 63, 2 ** 8 + 1, 2 ** 16 + 2, 2 ** 32 + 1, 2 ** 63 + 1]


def text_of(sections):
    lines = []
    for section in sections:
        lines += [(len(section),)] + section
    return b"".join(b" ".join(b"%d" % number for number in line) + b"\n" for line in lines)


def between(d, low, high):
    return low + d.below(high - low + 1)


def percent(d, share):
    return d.below(100) < share


def names_of(d, count):
    """So many accounts: neighbours, at times with odd ones among them."""
    start = d.of([0, 1, 1, 1, 250, 65536 - count])
    names = list(range(start, start + count))
    for odd in ODD_NAMES:
        if d.one_in(25) and odd not in names:
            names[d.below(count)] = odd
    return names


def messages_of(d, names, count, externals, times=(4, 5, 6)):
    """In turn over the accounts, at random, or in runs of one account."""
    shape, out = d.below(3), []
    while len(out) < count:
        name = names[len(out) % len(names)] if shape == 0 else d.of(names)
        for _ in range(between(d, 1, 6) if shape == 2 else 1):
            kind = int(percent(d, externals))
            out.append((kind, d.of(times) if kind else d.number(50), name))
    return out[:count]


def rows_of(d, names, count, skips):
    """Names come up twice, where the first row counts, and names without a message."""
    return [(d.below(65536) if d.one_in(12) else d.of(names), int(percent(d, skips)), d.of(COSTS)) for _ in range(count)]


def fill_of(d, slots, height, filtered, times=(4, 5, 6)):
    return (slots, height, int(percent(d, filtered)), d.of(times))


def fills_of(d, count, slots, height, filtered, times=(4, 5, 6)):
    return [fill_of(d, between(d, 0, slots), between(d, 0, height), filtered, times) for _ in range(count)]


def dense(d):
    """Few accounts, small heights, many fills."""
    names = names_of(d, between(d, 1, 5))
    rows = rows_of(d, names, d.below(3), 30) if d.one_in(3) else []
    return rows, messages_of(d, names, d.below(31), 20), fills_of(d, between(d, 1, 10), 4, 4, 25)


def tiny(d):
    """Sections of no line, one and two."""
    names = names_of(d, between(d, 1, 2))
    return rows_of(d, names, d.below(3), 50), messages_of(d, names, d.below(3), 40), fills_of(d, d.below(3), 2, 2, 40)


def stale(d):
    """Heights that rise and fall: slots that stay listed in a bucket they left, and code 13. Rows show by their costs who is visited."""
    names = names_of(d, between(d, 1, 6))
    rows = [(name, 0, 10 ** place) for place, name in enumerate(names)] if d.one_in(2) else []
    slots, height, fills = between(d, 1, 5), 1, []
    for _ in range(between(d, 3, 14)):
        fills.append(fill_of(d, slots, height, 10))
        height = min(16, max(0, height + d.of([-2, -1, -1, 0, 1, 1, 1, 2])))
        slots = min(16, slots + d.of([0, 0, 0, 1, 2]))
    return rows, messages_of(d, names, between(d, 4, 60), 15), fills


def skipping(d):
    """Many rows: skip verdicts, repeats, costs at both ends."""
    names = names_of(d, between(d, 2, 8))
    rows = rows_of(d, names, between(d, 1, 12), d.of([20, 50, 80, 100]))
    return rows, messages_of(d, names, between(d, 1, 40), 25), fills_of(d, between(d, 1, 8), 5, 5, 35)


def externals(d):
    """Chain times just before, at and just after the threshold, and at both ends of the range."""
    names = names_of(d, between(d, 1, 5))
    near = d.of([100, 100, 100, 1, 2 ** 63, MOST - 1])
    times = [near - 1, near, near + 1] * 2 + [0, MOST]
    rows = rows_of(d, names, d.below(4), 60) if d.one_in(2) else []
    return rows, messages_of(d, names, between(d, 1, 40), 75, times), fills_of(d, between(d, 1, 8), 4, 5, 85, times)


def waiting(d):
    """Many accounts of few messages, few slots, room for many: the waiting line goes round."""
    names = names_of(d, between(d, 4, 40))
    slots, height = between(d, 1, 4), between(d, 2, 16)
    fills = [fill_of(d, between(d, slots, slots + 2), min(16, between(d, height, height + 2)), 20) for _ in range(between(d, 1, 4))]
    return rows_of(d, names, d.below(4), 50), messages_of(d, names, len(names) * between(d, 1, 3), 15), fills


def wide(d):
    """Up to 16 slots of 16, up to 64 accounts."""
    names = names_of(d, between(d, 20, 64))
    fills = [fill_of(d, between(d, 6, 16), between(d, 1, 16), 20) for _ in range(between(d, 1, 8))]
    return rows_of(d, names, d.below(20), 30), messages_of(d, names, between(d, 30, 256), 20), fills


def crowded(d):
    """More accounts than A: code 5, and messages of accounts that stand already."""
    names = names_of(d, between(d, 62, 90))
    return rows_of(d, names, d.below(5), 30), messages_of(d, names, between(d, 60, 200), 20), fills_of(d, between(d, 0, 4), 16, 16, 20)


def full(d):
    """M and the most messages at their ends: code 4, with code 5 at times, and a minimum that a refused external must not lower."""
    names = names_of(d, d.of([1, 2, 5, 30, 64, 65, 80]))
    count = d.of([255, 256, 257, 258, 300, 400, 511, 512, 512])
    times = [50, 60, 70] if d.one_in(2) else list(range(600, 0, -1))
    return rows_of(d, names, d.below(4), 30), messages_of(d, names, count, d.of([0, 15, 100]), times), fills_of(d, between(d, 0, 5), 16, 16, 30, times)


def many(d):
    """The most rows and the most fills."""
    names = names_of(d, between(d, 1, 30))
    rows = rows_of(d, names, d.of([0, 62, 63, 64, 64]), 40)
    return rows, messages_of(d, names, d.below(120), 20), fills_of(d, d.of([62, 63, 64, 64]), between(d, 1, 16), between(d, 1, 16), 20)


def sizes(d):
    """Slots and heights at and above their limits: code 9 between fills that are done."""
    names = names_of(d, between(d, 1, 20))
    odd = lambda: d.of(ODD_SIZES) if d.one_in(2) else between(d, 0, 16)
    fills = [fill_of(d, odd(), odd(), 25) for _ in range(between(d, 1, 12))]
    return [], messages_of(d, names, d.below(60), 20), fills


def large(d):
    """Numbers of all lengths wherever any number may stand."""
    any_number = lambda: d.of([0, 1, 9, 10, MOST, MOST - 1, 2 ** 63, 2 ** 32, 10 ** 19, 10 ** 19 - 1, d.below(10 ** between(d, 1, 18))])
    names = names_of(d, between(d, 1, 6))
    rows = [(d.of(names), d.below(2), any_number()) for _ in range(d.below(6))]
    messages = [(d.below(2), any_number(), d.of(names)) for _ in range(between(d, 1, 30))]
    return rows, messages, [(between(d, 0, 5), between(d, 0, 6), d.below(2), any_number()) for _ in range(between(d, 1, 6))]


def longest(d):
    """As long as a sheet may be, a byte less, a byte more."""
    aim = d.of([LONGEST, LONGEST, LONGEST - 1, LONGEST + 1, LONGEST + 1, LONGEST + 2])
    names = [between(d, 10000, 65535) for _ in range(between(d, 1, 64))]
    rows = [(d.of(names), 0, MOST) for _ in range(64)]
    fills = [(between(d, 10, 16), between(d, 10, 16), 1, MOST - d.below(10 ** 18)) for _ in range(d.of([1, 3, 9]))]
    messages = [[int(d.one_in(4)), 10 ** 19 + d.below(10 ** 18), d.of(names)] for _ in range(512)]
    over = len(text_of([rows, messages, fills])) - aim
    while over > 0:
        message = d.of(messages)
        cut = min(over, len(str(message[1])) - 1, between(d, 1, 19))
        message[1] //= 10 ** cut
        over -= cut
    return rows, messages, fills


VALID = [dense, dense, tiny, stale, stale, stale, skipping, skipping, externals, externals, waiting, waiting, wide, crowded, full, many, sizes, large, longest]
SMALL = [dense, tiny, tiny, stale, skipping, externals, large]  # what is mostly spoiled: the break is then a large part of the sheet


def valid(d, shapes=VALID):
    shape = d.of(shapes)
    return shape.__name__, text_of(shape(d))
