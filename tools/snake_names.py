#!/usr/bin/env python3
"""Brings the names of this repository's own definitions and lemmas to today's spelling: words in snake case, types in
camel case. Run it once, at the top of the repository, after port.py.

A name is the repository's own if it has a hyphen, stands in a file of specs/ or proofs/ and is not imported from a
library of the kit. Comments, strings, inputs and outputs stay as they are, and so do the labels that the check makes for
a function's goals (`c.turn-ticks`, `goal.loop-i-preserved`): of a function's answers only names of the repository's own
are turned. In README.md and docs/ a name is turned where it stands between backticks.
"""
import os
import re
import sys

NAME = re.compile(r"(?<![\w'-])[A-Za-z][A-Za-z0-9_']*(?:-[A-Za-z0-9_'\u2080-\u2089]+)+(?![\w'-])")


def files(top, ending):
    for folder, _, names in os.walk(top):
        for name in sorted(names):
            if name.endswith(ending):
                yield os.path.join(folder, name)


def read(path):
    with open(path, encoding="utf-8") as f:
        return f.read()


def is_answer(path, crate):
    """A file of one function's proof, which names the labels of its goals."""
    inside = os.path.relpath(path, crate).split(os.sep)
    return inside[0] == "proofs" and len(inside) > 2


def split(text, comment):
    """The text as pieces, each with whether it is code (and not a comment or a string)."""
    pieces, at = [], 0
    for m in re.finditer(comment + r'[^\n]*|"(?:[^"\\]|\\.)*"', text):
        pieces += [(text[at:m.start()], True), (m.group(), False)]
        at = m.end()
    return pieces + [(text[at:], True)]


def code(text, comment):
    return "".join(piece for piece, is_code in split(text, comment) if is_code)


def turned(name):
    if name[0].isupper():
        first, *rest = re.split(r"[-_]", name)
        return first + "".join(word[:1].upper() + word[1:] for word in rest)
    return name.replace("-", "_")


def main():
    top = sys.argv[1] if len(sys.argv) > 1 else "."
    crates = sorted(os.listdir(os.path.join(top, "crates")))
    own, foreign, paths = set(), set(), []
    for name in crates:
        crate = os.path.join(top, "crates", name)
        for path in files(crate, ".antt"):
            paths.append((path, "--", is_answer(path, crate)))
        for path in files(crate, ".rt"):
            paths.append((path, "//", False))
    for path, comment, answers in paths:
        text = code(read(path), comment)
        for m in re.finditer(r"use ([\w.]+)\.\{([^}]*)\}", text):
            library = m.group(1).split(".")
            if not (library[0] == "Rattle" and library[1] in crates):
                foreign.update(NAME.findall(m.group(2)))
        if path.endswith(".antt") and not answers:
            own.update(NAME.findall(text))
    own -= foreign
    new = {name: turned(name) for name in own}
    if len(set(new.values())) != len(new):
        sys.exit("names fall together")

    def turn(text, answers):
        def one(m):
            before = text[: m.start()]
            if answers and re.search(r"(?<![\w'])(c|goal)\.$", before):
                return m.group()
            return new.get(m.group(), m.group())

        return NAME.sub(one, text)

    changed = 0
    for path, comment, answers in paths:
        text = read(path)
        after = "".join(turn(piece, answers) if is_code else piece for piece, is_code in split(text, comment))
        if after != text:
            changed += 1
            with open(path, "w", encoding="utf-8") as f:
                f.write(after)
    for path in [os.path.join(top, "README.md"), *files(os.path.join(top, "docs"), ".md")]:
        text = read(path)
        after = re.sub(r"`[^`\n]+`", lambda m: turn(m.group(), False), text)
        if after != text:
            changed += 1
            with open(path, "w", encoding="utf-8") as f:
                f.write(after)
    print(f"snake_names: {len(new)} names, {changed} files")


main()
