#!/usr/bin/env python3
"""Spells the definitions and lemmas of specs/ and proofs/ in snake case, by the rows of names.tsv beside this file: old, a tab, new.

usage: respell.py FOLDER     the top of a checkout, on which port.py ran

Whole words of code turn, in .antt and .rt files and in the lines of .edit files; a name with a capital turns in comments too, one with a dash only
in backticks. In README.md and docs/ what stands in backticks turns. Functions of src/, exported names and strings are in no row.
A second run changes nothing.
"""

import os
import re
import sys

HERE = os.path.dirname(os.path.realpath(__file__))
WORD = re.compile(r'[^\s(){}.;,@"«»]+')
CAPITAL = re.compile(r"[A-Za-z_][A-Za-z0-9_']*")
SPAN = re.compile(r"`[^`\n]+`")


def rows():
    with open(os.path.join(HERE, "names.tsv"), encoding="utf-8") as f:
        return dict(line.rstrip("\n").split("\t") for line in f)


def code(text, names):
    def one(m):
        word = m[0]
        if word in names:
            return names[word]
        bare = word.rstrip("':")
        if bare in names and bare != word:
            return names[bare] + word[len(bare):]
        # a word of a clause may touch a sign, as in '!isReal'
        return CAPITAL.sub(lambda w: names.get(w[0], w[0]), word) if re.search("[a-z][A-Z]", word) else word

    return WORD.sub(one, text)


def comment(text, names):
    text = SPAN.sub(lambda m: code(m[0][1:-1], names).join("``"), text)
    return CAPITAL.sub(lambda w: names.get(w[0], w[0]) if re.search("[a-z][A-Z]", w[0]) else w[0], text)


def source(text, names, mark):
    # strings stay; a comment goes to the end of its line
    parts = re.split(r'("(?:[^"\\\n]|\\.)*"|' + mark + r"[^\n]*)", text)
    return "".join(p if p.startswith('"') else comment(p, names) if i % 2 else code(p, names) for i, p in enumerate(parts))


def edit(text, names):
    return "\n".join(code(line, names) if re.match(r"(old|new):", line) else comment(line, names) if line.startswith("#") else line for line in text.split("\n"))


def turned(path, text, names):
    if path.endswith(".antt"):
        return source(text, names, "--")
    if path.endswith(".rt"):
        return source(text, names, "//")
    if path.endswith(".edit"):
        return edit(text, names)
    return SPAN.sub(lambda m: code(m[0][1:-1].replace(":", " : "), names).replace(" : ", ":").join("``"), text)


def main():
    top, names = sys.argv[1], rows()
    for part in ("crates", "docs", "README.md"):
        for folder, below, files in os.walk(os.path.join(top, part)) if part != "README.md" else [(top, [], ["README.md"])]:
            below[:] = sorted(d for d in below if d not in ("out", "landings"))
            for name in sorted(files):
                path = os.path.join(folder, name)
                if not name.endswith((".antt", ".rt", ".edit", ".md")) or os.path.islink(path):
                    continue
                with open(path, encoding="utf-8") as f:
                    before = f.read()
                after = turned(path, before, names)
                if after != before:
                    with open(path, "w", encoding="utf-8") as f:
                        f.write(after)


main()
