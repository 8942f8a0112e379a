#!/usr/bin/env python3
"""Brings the names that this repository's own definitions, fields and lemmas have to today's spelling: words in snake case, types and modules in
camel case. It was run once, right after the toolchain's own port.py, on the tree that port.py leaves; docs/PORT.md names the commit.

usage: tools/respell.py [--dry | --local]

A name is turned if a file of specs/ or proofs/ declares it with a dash or a hump: `rowAt` becomes `row_at`, `rank-kept` becomes `rank_kept`, and
`Names-g`, a record, `NamesG`. Words of Rust code, strings, exported names, inputs and outputs stay. A file that imports the same spelling from
the toolchain's library keeps it. Labels that the toolchain makes, as those of goals, stay too. Names that would fall together with another one
get the spelling of APART. With --dry it lists names that would fall together, and writes nothing. With --local, in a second run, it turns the names
that a file gives to what it imports and to its parameters, which LOCAL lists.
"""

import os
import re
import sys
from collections import Counter, defaultdict

NAME = r"[^\s(){}\[\].;,@\"«»]+"
MARKS = r"(?:(?:pub|abbrev|unfoldable|irreducible|inline)\s+)*"
DECLARED = re.compile(rf"^(\s*)({MARKS})({NAME})((?:\s+[({{].*)?)\s+:(?:\s|$)")
HEADED = re.compile(rf"^\s*(?:pub\s+)?(record|data|ruleset|syntax)\s+({NAME})")
USE = re.compile(r"^\s*(?:pub\s+)?(?:ghost\s+)?(?:use|open)\s+([^\s{]+?)\.?\s*\{([^}]*)\}", re.M)
WALKED = ("Proof.antt", "Answers.antt", "Invariants.antt")
# names that would meet another one, and what they are called
APART = {n: n.replace("-", "_") + "_lem" for n in """
sweep-cell stop-by slots-now set-up seat-of seat-in rolled-back queue-of places-left pass-cell pass-by not-past
new-place new-numbers messages-left message-in last-after key-rows is-nil ints-left has-slot group-mark group-in group-cost
group-after entry-list counts-in buffer-in buffer-after accounts-in row-in row-at number-of may-end may-begin count-of
""".split()}
APART["allDigits"] = "digits_only"
APART["numb"] = "Numb"
# names that are given inside files: by `as`, or to a parameter
LOCAL = """beginBy beginCall commitBy commitCall countIn deskFilled deskJoined filterBy freshHeld keptHalf lapsedOf listAt lowestOf moreOf plainBy
plainSlots queuedOf rollbackBy rollbackCall storeMeant targetMeant placesTo placesFrom kindRows""".split()


def is_walk(path):
    return os.path.basename(path) in WALKED


def files():
    for folder, dirs, names in os.walk("crates"):
        dirs[:] = sorted(d for d in dirs if d != "out")
        for n in sorted(names):
            if n.endswith((".antt", ".rt")):
                yield os.path.join(folder, n)


def snake(name):
    if name in APART:
        return APART[name]
    if name[0].isupper() and "-" in name and name.split("-")[0] in ("Names",):
        return "".join(p[0].upper() + p[1:] for p in name.split("-"))
    words = re.sub(r"(?<=[a-z0-9])[A-Z]", lambda m: "_" + m[0].lower(), name)
    return words.replace("-", "_").replace("′", "'")


def humped(name):
    return name in APART or name != "-" and ("-" in name or "′" in name or (name[0].islower() and re.search(r"[a-z0-9][A-Z]", name)))


def without_comments(text):
    return re.sub(r"(?m)--.*$", "", text)


def declared(texts):
    """The names that specs/ and proofs/ declare outside the walks, and those that a walk declares for itself."""
    own, inside = set(), defaultdict(set)
    for p, t in texts.items():
        if not p.endswith(".antt"):
            continue
        for l in without_comments(t).split("\n"):
            m = DECLARED.match(l) or None
            found = []
            if m:
                found.append(m[3])
            h = HEADED.match(l)
            if h:
                found.append(h[2])
            for n in found:
                if not humped(n):
                    continue
                if is_walk(p):
                    if not re.search(rf"(?:^|\s){re.escape(n)} : (?:tie|goal)\.", l):
                        inside[p].add(n)
                else:
                    own.add(n)
    return own, inside


def from_library(text):
    out = set()
    for path, names in USE.findall(text):
        steps = path.split(".")
        if steps[0] == "Rattle" and len(steps) > 1 and os.path.isdir(os.path.join("crates", steps[1])):
            continue
        for it in names.split(","):
            words = it.split()
            if words:
                out.add(words[-1])
                out.add(words[0])
    return out


TOKEN = re.compile(rf"(\.?)({NAME})")


def turn_antt(path, text, table, kept):
    walk = is_walk(path)
    out = []
    for line in text.split("\n"):
        code, dash, comment = line.partition("--") if re.search(r"(^|\s)--(\s|$)", line) else (line, "", "")
        if dash and not re.search(r"(^|\s)$", code):
            code, dash, comment = line, "", ""

        def one(m):
            dot, n = m[1], m[2]
            if n not in table or n in kept:
                return m[0]
            if walk and dot and re.search(r"-(is|fits|bits|end)$", n):
                return m[0]
            return dot + table[n]

        code = TOKEN.sub(one, code)
        # in a comment only what stands between backticks
        comment = re.sub(r"`([^`]*)`", lambda m: "`" + re.sub(NAME, lambda k: table.get(k[0], k[0]) if k[0] not in kept else k[0], m[1]) + "`", comment)
        out.append(code + dash + comment)
    return "\n".join(out)


def edits():
    for c in sorted(os.listdir("crates")):
        folder = os.path.join("crates", c, "must-fail")
        for n in sorted(os.listdir(folder)) if os.path.isdir(folder) else []:
            if n.endswith(".edit"):
                yield os.path.join(folder, n)


def turn_edit(text, table):
    """The texts of an edit of a definition or of a proof."""
    out, antt = [], False
    for line in text.split("\n"):
        if line.startswith("file:"):
            antt = line.strip().endswith(".antt")
        if antt and line.startswith(("old:", "new:")):
            line = line[:4] + TOKEN.sub(lambda m: m[1] + table.get(m[2], m[2]), line[4:])
        out.append(line)
    return "\n".join(out)


CLAUSE = re.compile(r"^\s*(?:ghost\b|requires\b|ensures\b|also_owns|also_shares|invariant)")


def turn_rt(text, table, kept):
    """Only ghost items, clauses and what comments name between backticks."""
    out, depth = [], 0
    for line in text.split("\n"):
        bare = line.strip()
        if bare.startswith("//"):
            line = re.sub(r"`([^`]*)`", lambda m: "`" + re.sub(r"[\w'-]+", lambda k: table.get(k[0], k[0]), m[1]) + "`", line)
        elif CLAUSE.match(line) or depth > 0:
            line = TOKEN.sub(lambda m: m[1] + table[m[2]] if m[2] in table and m[2] not in kept else m[0], line)
            depth += line.count("{") - line.count("}")
        out.append(line)
    return "\n".join(out)


def main(argv):
    os.chdir(os.path.join(os.path.dirname(os.path.abspath(__file__)), ".."))
    texts = {p: open(p, encoding="utf-8").read() for p in files()}
    if "--local" in argv:
        for p, t in texts.items():
            new = re.sub(rf"(?<![\w.:-])({'|'.join(LOCAL)})(?![\w-])", lambda m: snake(m[1]), t)
            if new != t:
                with open(p, "w", encoding="utf-8") as f:
                    f.write(new)
        return 0
    own, inside = declared(texts)
    table = {n: snake(n) for n in own}
    # what would fall together
    if "--dry" in argv:
        for new, k in Counter(table.values()).items():
            if k > 1:
                print("together:", new, [o for o in table if table[o] == new])
        for p, t in texts.items():
            code = without_comments(t)
            tokens = {m[2] for m in TOKEN.finditer(code)}
            lib = from_library(t)
            for n in sorted(tokens & set(table)):
                if n in lib:
                    print("library:", n, p)
                elif table[n] in tokens:
                    print("meets:", n, "->", table[n], p)
        return 0
    turned = 0
    for p in edits():
        with open(p, encoding="utf-8") as f:
            t = f.read()
        new = turn_edit(t, table)
        if new != t:
            with open(p, "w", encoding="utf-8") as f:
                f.write(new)
            turned += 1
    for p, t in texts.items():
        here = dict(table)
        if is_walk(p):
            here.update({n: snake(n) for n in inside[p]})
        kept = from_library(t)
        new = turn_antt(p, t, here, kept) if p.endswith(".antt") else turn_rt(t, table, kept)
        if new != t:
            with open(p, "w", encoding="utf-8") as f:
                f.write(new)
            turned += 1
    print(f"respell: {len(table)} names, {turned} files")
    return 0


if __name__ == "__main__":
    raise SystemExit(main(sys.argv[1:]))
