#!/usr/bin/env python3
"""Spells the repository's own definitions and lemmas in snake case, and its facts in camel case.

usage: python3 tools/spell_names.py          at the top of the repository; a second run changes nothing

Names with a dash that specs/ and proofs/ of a crate define, record fields among them, are turned wherever antt has them: in specs/, in
proofs/, and in the clauses and `ghost use` items of src/. A dash stays behind `length` and around a name that keeps its capital, where it
joins two names. Names that Rattle makes (goals, invariants, measures) are left, and so are strings, inputs and outputs.
"""

import glob
import re
import sys

# A word of antt, and what begins the line that defines one.
WORD = re.compile(r"[^\s(){}.;,@\"«»\[\]`…:/|]+")
DEFINES = re.compile(r"\s*(?:(?:abbrev|unfoldable|pub|record|data)\s+)*([^\s:{}()=,\[\]]+)(?= : | \(| \{)")
# Facts that are named as types, and a name that would fall together with one of the library's.
FACTS = {
    "Later-in-seconds": "LaterInSeconds",
    "Same-bytes": "SameBytes",
    "Same-rows": "SameRows",
    "Worked-stop": "WorkedStop",
    "Written-from": "WrittenFrom",
    "put-mid": "put_copied",
}


def spelled(name):
    """The name as today's convention writes it."""
    if name in FACTS:
        return FACTS[name]
    head, _, rest = name.partition("-")
    if head == "length":
        return head + "-" + rest.replace("-", "_")
    parts = name.split("-")
    out = parts[0]
    for before, part in zip(parts, parts[1:]):
        out += ("-" if before[:1].isupper() or part[:1].isupper() else "_") + part
    return out


def files(pattern):
    return sorted(glob.glob(f"crates/*/{pattern}", recursive=True))


def own_names():
    """Each name with a dash that a line of specs/ or proofs/ defines; a line that states a goal defines none."""
    names = set()
    for path in files("specs/**/*.antt") + files("proofs/**/*.antt"):
        for line in open(path, encoding="utf-8"):
            m = DEFINES.match(line)
            if m and "-" in m[1] and " : " in line and "goal." not in line and not re.match(r"\s*(use|let|in|elim|λ)\s|\s*--", line):
                names.add(m[1])
    return {n: spelled(n) for n in names if spelled(n) != n}


def turned(text, table):
    """The text with each word of the table turned."""
    return WORD.sub(lambda m: table.get(m[0], m[0]), text)


CLAUSE = re.compile(r"ghost\s+use\b[^;]*;|//[^\n]*|\b(?:requires|ensures|ghost)\b\s*\*?\s*[\w«»]*\s*[:=]?\s*\{")


def turned_source(text, table):
    """A source file: only `ghost use` items, the code spans of comments and what stands between the braces of a clause."""
    out, at = [], 0
    while m := CLAUSE.search(text, at):
        out.append(text[at : m.start()])
        if m[0].startswith("//"):
            out.append(re.sub(r"`[^`\n]*`", lambda s: turned(s[0], table), m[0]))
            at = m.end()
        elif m[0].endswith(";"):
            out.append(turned(m[0], table))
            at = m.end()
        else:
            depth, end = 1, m.end()
            while depth:
                depth += {"{": 1, "}": -1}.get(text[end], 0)
                end += 1
            out.append(turned(text[m.start() : end], table))
            at = end
    return "".join(out) + text[at:]


def main():
    table = own_names()
    by_new = {}
    for old, new in table.items():
        by_new.setdefault(new, []).append(old)
    for new, olds in by_new.items():
        if len(olds) > 1:
            sys.exit(f"{' and '.join(olds)} fall together")
    for path in files("specs/**/*.antt") + files("proofs/**/*.antt") + files("src/**/*.rt"):
        with open(path, encoding="utf-8", newline="") as f:
            old = f.read()
        new = turned_source(old, table) if path.endswith(".rt") else turned(old, table)
        if new != old:
            with open(path, "w", encoding="utf-8", newline="") as f:
                f.write(new)
    print(f"{len(table)} names")


if __name__ == "__main__":
    main()
