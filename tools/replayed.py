"""What stored-run and compare-replay share: scenarios, and who answers them.

The oracle and its generator stand in oracle/target/release, or in the folder that ORACLE names; the program is crates/replay/out/replay, where
`rt run` in crates/replay puts it, or the file that REPLAY names."""
import os, random, re, subprocess, sys

TOP = os.path.dirname(os.path.dirname(os.path.abspath(__file__)))
BIN = os.environ.get("ORACLE") or os.path.join(TOP, "oracle", "target", "release")
PROGRAM = os.environ.get("REPLAY") or os.path.join(TOP, "crates", "replay", "out", "replay")
PROFILES = ["dense", "stale", "rows", "externals", "transactions", "joins", "limits", "numbers", "mixed"]
MOST = 2 ** 64 - 1


def answer(words, text=b""):
    """What a program writes on an input. One that is missing or fails is an error of its own."""
    if not os.path.exists(words[0]):
        sys.exit("%s is missing: oracle/build makes the oracle's programs, `rt run` the port's" % words[0])
    done = subprocess.run(words, input=text, stdout=subprocess.PIPE, stderr=subprocess.PIPE)
    if done.returncode != 0:
        sys.exit("%s: status %d: %s" % (words[0], done.returncode, done.stderr[-2000:].decode("utf-8", "replace")))
    return done.stdout


def oracle(text):
    return answer([os.path.join(BIN, "oracle")], text)


def replay(text):
    return answer([PROGRAM], text)


def generated(profile, seed, count, terse=False):
    """Scenarios of the oracle's generator, one text each."""
    words = [os.path.join(BIN, "scenarios"), profile, str(seed), str(count)] + (["--terse"] if terse else [])
    stream = answer(words).decode()
    return re.split(r"(?m)^(?=# %s )" % profile, stream)[1:]


class Dice:
    """Random choices that are the same on every machine."""

    def __init__(self, *seed):
        self.source = random.Random("/".join(str(s) for s in seed))

    def below(self, n):
        return int(self.source.random() * n)

    def one_in(self, n):
        return self.below(n) == 0

    def of(self, choices):
        return choices[self.below(len(choices))]

    def number(self, n):
        """Mostly below n, now and then at the end of the range."""
        return self.of([MOST, MOST - 1, 2 ** 63, 2 ** 32, 256, 255]) if self.one_in(25) else self.below(n)


def buffers(seed, index):
    """A scenario of adds, removals and transactions on few accounts in a tight room, which the oracle's profiles make seldom."""
    d = Dice("buffers", seed, index)
    m, a = d.of([1, 2, 3, 5, 8, 16, 40]), d.of([1, 2, 3, 4, 6])
    accounts = 1 + d.below(a + 2)
    out = ["# buffers %d %d" % (seed, index), "loud", "rows", "set", "cost %d" % d.number(9), "keys %d" % d.below(5), "buffer %d %d" % (m, a)]

    def add():
        kind = d.of([2, 3, 255]) if d.one_in(15) else int(d.one_in(4))
        flags = (int(d.one_in(20)), int(d.one_in(8)))
        return "add %d %d %d %d %d %d" % (kind, *flags, d.number(accounts), d.number(50), d.number(1000))

    for _ in range(8 + d.below(30)):
        turn = d.below(20)
        if turn < 9:
            out.append(add())
        elif turn < 13:
            out.append(" ".join(["remove"] + [str(d.number(accounts)) for _ in range(d.below(4))]))
        elif turn < 18:
            out.append(d.of(["begin", "begin", "commit", "rollback", "rollback"]))
        elif turn == 18:
            out.append("full %d" % d.number(m + 2))
        else:
            out.append("times %d %s" % (1 + d.below(m + 1), d.of([add(), "begin", "rollback", "row %d 1 7" % d.number(9), "full 1"])))
    return "\n".join(out) + "\n"


def lines(seed, index):
    """A few lines of which the last is odd, and perhaps no command: spaces, numbers out of range, wrong counts, long lines, no last LF."""
    d = Dice("lines", seed, index)
    good = ["buffer 3 2", "add 0 0 0 7 5 1", "add 1 0 0 8 6 2", "remove 7 8", "remove", "begin", "commit", "rollback", "full 2", "quiet", "loud",
            "rows", "row 1 0 5", "row 7 1 2", "cost 4", "set", "keys 2048", "keys 4", "times 3 add 0 0 0 7 5 1", "times 2 begin", "group 0 2", "group 1 64",
            "group 3 1", "fill 0 1 2 0 0", "fill 0 2 16 1 6", "times 3 fill 0 1 1 0 0", "join 0 1", "times 2 join 1 0", "isfilled 0 1 1", "isfilled 1 0 17",
            "display 0", "display 1", "times 2 display 0", "", "   ", "# all is well", " #x"]

    def odd():
        words = d.of([g for g in good if g.strip() and "#" not in g]).split()
        at = d.below(len(words))
        number = d.of(["0", "00", "007", "1", "2", "3", "4", "16", "17", "64", "65", "255", "256", "2048", "2049", str(MOST), "0" * 30 + str(MOST), str(MOST + 1), str(10 * MOST),
                       "1" * 25, "-1", "+1", "1.0", "1e3", "0x1", "a", "1a", "a1", "\t", "1\r", "\xff", "\x00", "times", "add", "#"])
        how = d.below(10)
        if how < 4:
            words[at] = number
        elif how == 4:
            words.insert(at + 1, number)
        elif how == 5:
            del words[at]
        elif how == 6:
            words = ["times", number] + words
        elif how == 7:
            words[at] = words[at] + d.of(["\t", "\r", "x", "\x80", "\x0b"])
        elif how == 8:
            words = ["remove"] + [str(d.number(12)) for _ in range(d.of([0, 1, 5, 255, 256, 257, 1000]))]
        if words[:1] == ["times"] and len(words) > 1 and words[1].isdigit() and int(words[1]) > 1000:
            words[1] = "1000"  # it is really run so often
        text = (" " * (1 + d.below(3) * d.below(2))).join(words)
        long = d.of([65535, 65536, 65537, 70000, 140000]) if how == 9 else 0
        text += d.of([" ", "#", "1", " 1"]) * long
        return " " * d.below(2) * d.below(4) + (text[:long] if long else text) + " " * d.below(2) * d.below(4)

    out = [d.of(good) for _ in range(d.below(8))] + [odd()] + [d.of(good) for _ in range(d.below(3))]
    return "\n".join(out) + d.of(["", "\n", "\n"])


def commands(written):
    """How many lines an answer has an echo or a `bad line` of."""
    return len(re.findall(rb"(?m)^(?:> |bad line )", written))
