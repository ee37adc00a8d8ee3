#!/usr/bin/env python3
"""Lists the places in crates/*/src that today's forms might say better: design_places.py [COMMIT] [POINT].

Without a commit it reads the working tree. Points 1, 3, 4, 6 and 7 are lines that a pattern finds; 2 is functions of one
shape, once names, numbers and texts are taken out; 5 is facts and parameters that stand together in three functions or
more; 8 counts the proofs. What is found is a candidate: docs/DESIGN-PASS.md says what became of each."""
import collections
import io
import os
import re
import subprocess
import sys
import tarfile

LINES = {
    1: r"-> Option<\w*Fault>"
       r"|-> \((u8, u8, usize|u32, u8|u16, u8, u8|u8, u8)\)"
       r"|^\s*(None|Err\(_\)) => (true|false|None|0|at|return None|return false)\b"
       r"|== NONE\b|fn (told|first_kind|length|examples_stand)\(.*-> u8"
       r"|fn (is_whole|content|after|size)\(bytes",
    3: r"^\s*(while\b|loop\b)|^\s*for \w+ in .*\.\.",
    4: r"^#\[derive\(Clone, Copy\)\]"
       r"|fn (number|name|from_number|kind_of|is_same|is_later_than|equal_codes|be2|be4)\("
       r"|fn (put_(digits|number|decimal|hex|date|parts|word|count|line|named|fault|words|u16|u32|byte)"
       r"|digits_of|number_length|hex_digit|refused_line|verdict_line|line_length|fault_length|words_length)\b",
    6: r"out: &mut \[u8\], at: usize|^\s*at: usize,|count: usize[,)]|entries: &'a mut|&buffer\[\.\.|= \[0u8; ",
    7: r"\bmatch (rule|kind|\*?self|bytes\[0\]) \{",
}
WORD = re.compile(r"b?\"[^\"]*\"|b'.'|[A-Za-z_][A-Za-z_0-9]*|[0-9][0-9_a-z]*|\S")
KEPT = {"fn", "let", "mut", "if", "else", "match", "for", "in", "while", "loop", "return", "as", "Some", "None", "Ok",
        "Err", "true", "false", "self", "break"}


def sources(commit):
    """The path and the text of each source and proof file."""
    if commit:
        tar = subprocess.run(["git", "archive", commit, "crates"], check=True, capture_output=True).stdout
        with tarfile.open(fileobj=io.BytesIO(tar)) as files:
            texts = {m.name: files.extractfile(m).read().decode() for m in files.getmembers() if m.isfile()}
    else:
        names = subprocess.run(["git", "ls-files", "crates"], check=True, capture_output=True, text=True).stdout.split()
        texts = {name: open(name, encoding="utf-8").read() for name in names if os.path.isfile(name)}
    return dict(sorted(texts.items()))


def functions(text):
    """Name, parameters, clauses and body of each function with a body."""
    for start in re.finditer(r"^( *)(?:pub(?:\(crate\))? )?(?:final )?fn (\w+)", text, re.M):
        indent, rest = start.group(1), text[start.start():]
        opens = re.search(r"^%s\{$|^%s[^\n]*[^{\n] \{$|^%s\{\}$" % (indent, indent, indent), rest, re.M)
        ends = re.search(r";$", rest, re.M)
        close = re.search(r"^%s\}$" % indent, rest, re.M)
        if not opens or not close or (ends and ends.start() < opens.start()):
            continue
        head, body = rest[:opens.start() + (0 if rest[opens.start():].startswith(indent + "{") else len(opens.group()))], \
            rest[opens.end():close.start()]
        params = re.search(r"\((.*?)\)(?: ->|\s*$|\s*\n| \{)", head, re.S)
        yield start.group(2), params.group(1) if params else "", head, body


def shape(body):
    """What is left of a body without names, numbers and texts."""
    out = []
    for word in WORD.findall(re.sub(r"//.*", "", body)):
        if word in KEPT or not (word[0].isalnum() or word[0] in "_\"'" or word.startswith(("b\"", "b'"))):
            out.append(word)
        else:
            out.append("_")
    return " ".join(out)


def places(texts, point):
    rt = {name: text for name, text in texts.items() if re.match(r"crates/\w+/src/.*\.rt$", name)}
    if point in LINES:
        for name, text in rt.items():
            for number, line in enumerate(text.split("\n"), 1):
                if re.search(LINES[point], line):
                    yield f"{name}:{number}: {line.strip()}"
    elif point == 2:
        alike = collections.defaultdict(list)
        for name, text in rt.items():
            for function, _, _, body in functions(text):
                if len(shape(body).split()) >= 12:
                    alike[shape(body)].append(f"{name}: {function}")
        for group in alike.values():
            if len(group) > 1:
                yield from (f"{place} (one of {len(group)} alike)" for place in group)
    elif point == 5:
        facts, together = collections.defaultdict(set), collections.defaultdict(set)
        for name, text in rt.items():
            for function, params, head, _ in functions(text):
                for clause in re.findall(r"requires (?:\w+ )?\{ (.*) \}", head):
                    for fact in clause.split(" × "):
                        fact = re.sub(r"^\w+ \+ .* ≤ length", "_ ≤ length", fact.strip("() "))
                        facts[fact].add(f"{name}: {function}")
                names = re.findall(r"(\w+): ", params)
                for i, first in enumerate(names):
                    for second in names[i + 1:]:
                        together[first, second].add(f"{name}: {function}")
        for fact, found in facts.items():
            if len(found) >= 3:
                yield from (f"{place}: {fact}" for place in sorted(found))
        for pair, found in together.items():
            if len(found) >= 3:
                yield f"{len(found)} functions take {pair[0]} and {pair[1]}"
    elif point == 8:
        for name, text in texts.items():
            if name.endswith("Answers.antt"):
                answers = re.findall(r"^pub ([\w+-]+) : goal\.", text, re.M)
                yield from (f"{name}: {answer}" for answer in answers)


def main():
    words = sys.argv[1:]
    points = [int(word) for word in words if word in list("12345678")] or range(1, 9)
    commit = next((word for word in words if word not in list("12345678")), None)
    texts = sources(commit)
    for point in points:
        found = list(places(texts, point))
        print(f"point {point}: {len(found)}")
        if len(words) and len(list(points)) == 1:
            print("\n".join(found))


main()
