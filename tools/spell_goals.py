#!/usr/bin/env python3
"""Spells the names that Rattle makes for proofs as today's Rattle does: a name of the source keeps its spelling, and Rattle's own words are snake case.

usage: python3 tools/spell_goals.py [CRATE..]      at the top of the repository; all crates where none is named

It turns Answers.antt and Invariants.antt alone, and goes by the identifiers of the crate's source, the longest first; what it misses the
check tells. Names that a `use` line brings from anywhere but the function's own goals are left.
"""

import glob
import os
import re
import sys

WORD = re.compile(r"[^\s(){}.;,@\"«»\[\]`…:/|]+")
OWN = re.compile(r"(?<![\w-])(overflow|nonzero|slice|offset|invariant|shape|type)-(add|sub|mul|shl|shr|cast|step|div|rem|bounds|of|inv)(?![\w])")
IN = re.compile(r"(?<![\w])in-(ok|err|default)(?![\w])")


def identifiers(crate):
    """The identifiers of the source that have more than one part."""
    text = "".join(open(p, encoding="utf-8").read() for p in glob.glob(f"crates/{crate}/src/**/*.rt", recursive=True))
    return set(re.findall(r"\b[A-Za-z]\w*_\w+\b", re.sub(r"//.*", "", text)))


def spelled(word, known):
    """The word with each run of its parts that is an identifier of the source written as there."""
    word = IN.sub(r"in_\1", OWN.sub(r"\1_\2", word))
    out = []
    for piece in re.split(r"(\+)", word):
        parts, at, joined = piece.split("-"), 0, []
        while at < len(parts):
            for end in range(len(parts), at, -1):
                name = "_".join(parts[at:end])
                if end == at + 1 or name in known:
                    joined.append(name)
                    at = end
                    break
        out.append("-".join(joined))
    return "".join(out)


def imported(text):
    """The names that the file brings from elsewhere than its own goals."""
    names = set()
    for m in re.finditer(r"use ([^\s{]+)\.\{([^}]*)\}", text):
        if not m[1].endswith((".Goals", ".Given")):
            for item in m[2].split(","):
                names |= set(item.split())
    return names


def main():
    for crate in sys.argv[1:] or sorted(os.listdir("crates")):
        known = identifiers(crate)
        for path in glob.glob(f"crates/{crate}/proofs/**/*.antt", recursive=True):
            if os.path.basename(path) not in ("Answers.antt", "Invariants.antt"):
                continue
            with open(path, encoding="utf-8") as f:
                old = f.read()
            stays = imported(old)
            new = WORD.sub(lambda m: m[0] if "-" not in m[0] or m[0] in stays else spelled(m[0], known), old)
            if new != old:
                with open(path, "w", encoding="utf-8") as f:
                    f.write(new)
                print(path)


if __name__ == "__main__":
    main()
