#!/usr/bin/env python3
"""sheets.py SEED INDEX: writes one random sheet on standard output. tools/compare-sheet takes its sheets from here.

A sheet depends on seed and index alone. Of ten, six are valid (valid_sheets.py); four have gone through one or two breaks
(spoiled_sheets.py), and a few of these are still valid. `wrong_line` reads a sheet from 01's words, by other means than the oracle, so
that the two readings judge each other."""
import os, re, sys
sys.dont_write_bytecode = True
sys.path.insert(0, os.path.dirname(os.path.abspath(__file__)))
from replayed import Dice
from spoiled_sheets import spoiled
from valid_sheets import LONGEST, SECTIONS, valid

NUMBER = re.compile(rb"0|[1-9][0-9]{0,19}")  # the greatest has 20 digits


def wrong_line(text):
    """The number of the first broken, missing or extra line; None if the sheet is valid."""
    if len(text) > LONGEST:
        return 1
    lines = text.split(b"\n")
    ended = len(lines) - 1  # what follows the last LF is not ended: nothing, or a broken or extra line
    at = 0

    def numbers(most):
        nonlocal at
        at += 1
        words = lines[at - 1].split(b" ") if at <= ended else []
        if len(words) != len(most) or not all(NUMBER.fullmatch(word) for word in words):
            return None
        found = [int(word) for word in words]
        return found if all(number <= top for number, top in zip(found, most)) else None

    for most_lines, most in SECTIONS:
        count = numbers((most_lines,))
        if count is None or any(numbers(most) is None for _ in range(count[0])):
            return at
    return at + 1 if at < ended or lines[-1] else None


def sheet(seed, index):
    """Its kind and its bytes."""
    d = Dice("sheets", seed, index)
    return spoiled(d) if d.below(10) < 4 else valid(d)


if __name__ == "__main__":
    if len(sys.argv) != 3:
        sys.exit("usage: sheets.py SEED INDEX")
    sys.stdout.buffer.write(sheet(int(sys.argv[1]), int(sys.argv[2]))[1])
