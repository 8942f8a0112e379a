"""Spoiled random sheets. Each of BREAKS takes the lines of a sheet, without their LF, and changes them, or gives a whole text back."""
from replayed import MOST
from valid_sheets import LONGEST, SECTIONS, SMALL, VALID, between, valid

ODD_WORDS = [b"", b"-1", b"-0", b"+1", b"1.0", b"1e3", b"0x1", b"a", b"1a", b"a1", b"1_0", b"1,0", b"#", b"\x00", b"1\x00", b"\x001", b"\xff", b"\xb2",
             b"\xd9\xa1", b"\xef\xbc\x91", b"/", b":", b"1/", b":1", b"'1'", b"\"1\"", b"NaN", b"1" * 25, b"9" * 400]
ODD_SPACES = [b"  ", b"\t", b"\t", b"\x0b", b"\x0c", b"\r", b"\xa0", b"\xc2\xa0", b",", b"\x00", b" \t", b"_", b"", b"   "]
OTHER_BYTES = [0, 9, 10, 13, 32, 43, 45, 47, 48, 49, 50, 57, 58, 127, 128, 255]


def value(word):
    """What stands there now; 0 where an earlier break has left no number."""
    return int(word) if word.isdigit() and len(word) <= 20 else 0


def layout(lines):
    """Of each line the section it stands in and whether it is its count."""
    out = []
    for section in range(3):
        count = value(lines[len(out)]) if len(out) < len(lines) else 0
        out += [(section, True)] + [(section, False)] * min(count, len(lines))
    return out[:len(lines)]


def a_line(d, lines):
    """The place of a line: each section and each count as often, and in a section the first and the last often."""
    marks = layout(lines)
    of = d.of(sorted(set(marks)))
    places = [place for place, mark in enumerate(marks) if mark == of]
    return d.of([places[0], places[-1], d.of(places)]), of


def a_word(d, lines):
    at, (section, is_count) = a_line(d, lines)
    words = lines[at].split(b" ")
    place = d.below(len(words))
    most_lines, most = SECTIONS[section]
    top = most_lines if is_count else most[place] if place < len(most) else MOST
    return at, words, place, top


def odd_word(d, lines):
    at, words, place, _ = a_word(d, lines)
    words[place] = d.of(ODD_WORDS)
    lines[at] = b" ".join(words)


def leading_zero(d, lines):
    at, words, place, _ = a_word(d, lines)
    words[place] = d.of([b"0", b"0", b"00", b"0" * 20, b"0" * 300]) + words[place]
    lines[at] = b" ".join(words)


def above(d, lines):
    """Just above what may stand here, or such that fewer bits would make it what stood there."""
    at, words, place, top = a_word(d, lines)
    was = value(words[place])
    beyond = [top + 1, top + 1, top + 2, MOST + 1, MOST + 1 + was, 10 * MOST, 2 ** 65 + was, 2 ** 128 + was, 10 ** 20, 10 ** 20 + was]
    beyond += [was + 2 ** bits for bits in (8, 16, 32, 63) if was + 2 ** bits > top]
    words[place] = b"%d" % d.of(beyond)
    lines[at] = b" ".join(words)


def at_most(d, lines):
    """Exactly what may stand here at most: valid, but for a count."""
    at, words, place, top = a_word(d, lines)
    words[place] = b"%d" % top
    lines[at] = b" ".join(words)


def other_count(d, lines):
    """A count that is not that of the lines that follow."""
    at = d.of([place for place, (_, is_count) in enumerate(layout(lines)) if is_count])
    lines[at] = b"%d" % max(0, value(lines[at]) + d.of([-3, -2, -1, -1, 1, 1, 2, 3]))


def less_words(d, lines):
    at, words, place, _ = a_word(d, lines)
    del words[place]
    lines[at] = b" ".join(words)


def more_words(d, lines):
    at, words, place, _ = a_word(d, lines)
    words.insert(place + d.below(2), d.of([b"0", b"1", b"7", b"%d" % MOST]))
    lines[at] = b" ".join(words)


def spaces(d, lines):
    """Another separator, two spaces, or something at an end of the line."""
    at, words, place, _ = a_word(d, lines)
    odd = d.of(ODD_SPACES)
    how = d.below(4)
    if how == 0:
        lines[at] = d.of([b" ", odd]) + lines[at]
    elif how == 1 or len(words) < 2:
        lines[at] = lines[at] + d.of([b" ", odd])
    else:
        place = max(1, place)
        lines[at] = b" ".join(words[:place]) + odd + b" ".join(words[place:])


def carriage(d, lines):
    """CR before LF, on one line or on all; or in the place of LF."""
    how = d.below(3)
    if how == 0:
        at, _ = a_line(d, lines)
        lines[at] += b"\r"
    elif how == 1:
        lines[:] = [line + b"\r" for line in lines]
    else:
        return b"\r".join(lines) + d.of([b"\r", b"\n"])


def blank_line(d, lines):
    at, _ = a_line(d, lines)
    lines.insert(at + d.below(2), d.of([b"", b"", b" ", b"#"]))


def lost_line(d, lines):
    at, _ = a_line(d, lines)
    del lines[at]


def twice_line(d, lines):
    at, _ = a_line(d, lines)
    lines.insert(at, lines[at])


def swapped(d, lines):
    at, _ = a_line(d, lines)
    to, _ = a_line(d, lines)
    lines[at], lines[to] = lines[to], lines[at]


def one_line_of_two(d, lines):
    at, _ = a_line(d, lines)
    if at + 1 < len(lines):
        lines[at:at + 2] = [lines[at] + d.of([b"", b" "]) + lines[at + 1]]


def two_lines_of_one(d, lines):
    at, words, place, _ = a_word(d, lines)
    place = max(1, place)
    lines[at:at + 1] = [b" ".join(words[:place]), b" ".join(words[place:])]


def some_byte(d, lines):
    """A byte changed, added or taken away anywhere."""
    text = bytearray(whole(lines))
    at, byte = d.below(len(text)), d.of(OTHER_BYTES) if d.one_in(2) else d.below(256)
    how = d.below(3)
    text[at:at + (how > 0)] = bytes([byte] if how < 2 else [])
    return bytes(text)


def cut(d, lines):
    """The end is missing: from any byte on, from a line's start on, or the last LF alone."""
    text = whole(lines)
    return d.of([text[:d.below(len(text))], whole(lines[:d.below(len(lines))]), text[:-1], text[:-1]])


def after(d, lines):
    """Something after the last fill."""
    noise = bytes(d.below(256) for _ in range(between(d, 1, 40)))
    more = [b"\n", b"\n", b"\n\n", b"0\n", b"0", b" ", b"x", b"\x00", b"\xff", b"\r\n", b"\x1a", b"1 1 0 0\n", b"1 1 0 0"]
    return whole(lines) + d.of(more + [lines[-1] + b"\n", lines[-1], noise, whole(lines)])


def before(d, lines):
    return d.of([b"\n", b" ", b"\xef\xbb\xbf", b"\x00", b"0\n", b"# a sheet\n", b"\xff\xfe"]) + whole(lines)


def too_long(d, lines):
    """More than 16,384 bytes: a valid sheet and then too much, or too much of anything."""
    size = d.of([LONGEST + 1, LONGEST + 1, LONGEST + 2, 20000, 32769, 65536, 65537, 70000, 200000])
    start = d.of([whole(lines), whole(lines), b"", b"x\n", whole(lines) + b"x\n"])
    filler = d.of([b"\n", b"0\n", b"0", b" ", b"\x00", b"1 1 0 0\n", whole(lines), bytes(d.below(256) for _ in range(50))])
    return (start + filler * (size // len(filler) + 1))[:size]


def long_broken(d, lines):
    """As long as may be, or just less, and so the broken line itself is reported and not line 1."""
    size = LONGEST - d.of([0, 0, 1, 2, 100])
    filler = d.of([b"\n", b"0", b" ", b"\x00", b"1 1 0 0\n"])
    return (whole(lines) + filler * LONGEST)[:size]


def noise(d, lines):
    """Bytes at random, of all values or of those that a sheet has."""
    of = d.of([bytes(range(256)), b"0123456789 \n", b"01 \n", b"0\n", b"\n", b" ", b"\x00", b"0 1\n\n\n"])
    return bytes(d.of(of) for _ in range(d.of([0, 1, 2, 3, 4, 5, 6, 7, 8, 10, 12, 20, 100, 1000])))


def nothing(d, lines):
    return b""


BREAKS = [odd_word, odd_word, leading_zero, leading_zero, above, above, above, at_most, other_count, other_count, less_words, more_words, spaces, spaces,
          carriage, blank_line, lost_line, twice_line, swapped, one_line_of_two, two_lines_of_one, some_byte, some_byte, some_byte, cut, cut,
          after, after, before, too_long, long_broken, noise, noise]


def whole(lines):
    return b"".join(line + b"\n" for line in lines)


def spoiled(d):
    """One break, or two of which the first in the text is to be reported."""
    text = valid(d, VALID if d.one_in(12) else SMALL)[1]
    names = []
    for _ in range(2 if d.one_in(5) else 1):
        way = nothing if d.one_in(400) else d.of(BREAKS)
        names.append(way.__name__)
        lines = text.split(b"\n")[:-1]
        if lines:
            given = way(d, lines)
            text = whole(lines) if given is None else given
    return "+".join(names), text
