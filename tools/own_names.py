#!/usr/bin/env python3
"""Respells this repository's own names of definitions and lemmas, once, after the toolchain's own porting script.

usage: tools/own_names.py [TOP]

own_names.txt, beside this file, has a row for each name: as it was, and as it is. Words are in snake case: a capital inside a name becomes
an underscore and a small letter, and so does a dash. A lemma that would then have the name of a definition or of a function ends in `_lem`.
Names that the prover makes of the code (goals, invariants, measures), names of the library, of functions, fields and variables of src/, of
files, and all strings keep their spelling.
"""

import os
import re
import sys

HERE = os.path.dirname(os.path.realpath(__file__))
NAME = re.compile(r"[A-Za-z][A-Za-z0-9_']*(?:-[A-Za-z0-9_'ℤℕ]+)*")
STRING = re.compile(r'b?"(?:[^"\\]|\\.)*"')


def table():
    with open(os.path.join(HERE, "own_names.txt"), encoding="utf-8") as f:
        return dict(line.split() for line in f if line.strip())


def respell(text, names, made):
    """The text with each of the names respelled; behind a dot a dash is of a name that the prover made, where `made` says so."""

    def one(m):
        name = m.group(0)
        before = text[m.start() - 1 : m.start()]
        if before in ("-", "+", "'", "μ"):
            return name
        if made and before == "." and "-" in name:
            return name
        return names.get(name, name)

    return NAME.sub(one, text)


def in_words(text, names):
    """A comment: names in backticks, and those with a capital inside, which are no words of English."""

    def quoted(m):
        return "`" + respell(m.group(1), names, False) + "`"

    capitals = {old: new for old, new in names.items() if "-" not in old}
    return respell(re.sub(r"`([^`]*)`", quoted, text), capitals, False)


def parts(line, mark):
    """A line's code and its comment, which begins at the mark; strings hold no mark."""
    blank = STRING.sub(lambda m: "\0" * len(m.group(0)), line)
    m = re.search(r"(^|\s)" + re.escape(mark) + r"(\s|$)", blank)
    at = m.start() if m else len(line)
    return line[:at], line[at:]


def with_strings_kept(code, turn):
    kept, out, at = [], [], 0
    for m in STRING.finditer(code):
        out += [turn(code[at : m.start()]), m.group(0)]
        at = m.end()
    return "".join(out + [turn(code[at:])])


def turned(path, text, names):
    antt = path.endswith(".antt")
    mark = "--" if antt else "//"
    made = os.path.basename(path) == "Proof.antt"
    mine = names
    if made:
        # a goal's answer stands under the name that the prover made
        goals = set(re.findall(r"(?m)^(\S+)\s*:\s*tie\.", text)) | set(re.findall(r"(?:Need|InvT|MeasureT|Inv|μ)-([^\s(){},]+)", text))
        mine = {old: new for old, new in names.items() if old not in goals}
    lines = []
    for line in text.split("\n"):
        code, comment = parts(line, mark)
        lines.append(with_strings_kept(code, lambda t: respell(t, mine, made)) + in_words(comment, names))
    return "\n".join(lines)


def edit(text, names):
    lines = []
    for line in text.split("\n"):
        m = re.match(r"(old: |new: )(.*)", line)
        lines.append(m.group(1) + with_strings_kept(m.group(2), lambda t: respell(t, names, False)) if m else in_words(line, names) if not line.startswith("file: ") else line)
    return "\n".join(lines)


def main(argv):
    top = argv[0] if argv else "."
    names = table()
    for folder, dirs, files in os.walk(os.path.join(top, "crates")):
        dirs[:] = sorted(d for d in dirs if d != "out")
        for f in sorted(files):
            path = os.path.join(folder, f)
            if not f.endswith((".rt", ".antt", ".edit")):
                continue
            with open(path, encoding="utf-8") as it:
                old = it.read()
            new = edit(old, names) if f.endswith(".edit") else turned(path, old, names)
            if new != old:
                with open(path, "w", encoding="utf-8") as it:
                    it.write(new)
    return 0


if __name__ == "__main__":
    raise SystemExit(main(sys.argv[1:]))
