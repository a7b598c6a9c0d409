#!/usr/bin/env python3
"""Brings this repository's own names to the spelling of the newer Rattle: words and lemmas in snake case, a lemma that would have its word's name with `_lem`.

usage: python3 tools/respell.py   at the top, once, right after the toolchain's own script

respelled.txt, beside this file, has a line for each name: old, new and, where only some files mean it, the path they begin with.
Code in .antt files and in clauses of .rt files is read name by name, comments where they quote a name, must-fail edits as the file that they change.
Source names, strings, paths of modules and outputs stay.
"""

import os
import re
import sys

HERE = os.path.dirname(os.path.realpath(__file__))
# A name with what stands before it: a path's part is a module or a generated name, and stays, a field's is ours.
NAME = re.compile(r"[A-Za-z][\w'₀₁₂₃₄₅₆₇₈₉]*(?:-[\w'₀₁₂₃₄₅₆₇₈₉]+)*")
QUOTED = re.compile(r"`[^`]*`")
CAMEL = re.compile(r"^[a-z][a-z0-9]*[A-Z]\w*$")


def table():
    everywhere, somewhere = {}, []
    for line in open(os.path.join(HERE, "respelled.txt"), encoding="utf-8"):
        words = line.split()
        if len(words) == 2:
            everywhere[words[0]] = words[1]
        elif len(words) == 3:
            somewhere.append(words)
    return everywhere, somewhere


EVERYWHERE, SOMEWHERE = table()


def names_for(path):
    return EVERYWHERE | {old: new for old, new, where in SOMEWHERE if path.startswith(where)}


def turned(text, names):
    def one(m):
        # `a.b.old_name.` is a path through a function's own module
        inside = m.start() > 0 and text[m.start() - 1] == "." and text[m.end() : m.end() + 1] == "."
        if inside and "_" in m.group() and "-" not in m.group():
            return m.group()
        return names.get(m.group(), m.group())

    return NAME.sub(one, text)


def comment(text, names):
    text = QUOTED.sub(lambda m: turned(m.group(), names), text)
    text = NAME.sub(lambda m: names.get(m.group(), m.group()) if CAMEL.match(m.group()) else m.group(), text)
    # a word of English that the toolchain's script took for a name
    return re.sub(r"(?<![`\w])take_back(?![`\w])", "take-back", text)


def code(text, names, mark):
    """A file: its code, its strings left alone (also over several lines), and its comments."""
    out, at, start = [], 0, 0
    while at < len(text):
        if text[at] == '"':
            out.append(turned(text[start:at], names))
            end = at + 1
            while end < len(text) and text[end] != '"':
                end += 2 if text[end] == "\\" else 1
            out.append(text[at : end + 1])
            at = start = end + 1
        elif text.startswith(mark, at) and (at == 0 or text[at - 1] in " \t\n"):
            out.append(turned(text[start:at], names))
            end = text.find("\n", at)
            end = len(text) if end < 0 else end
            out.append(comment(text[at:end], names))
            at = start = end
        else:
            at += 1
    out.append(turned(text[start:], names))
    return "".join(out)


def edit(text, names):
    """A must-fail edit: its texts as the toolchain's script and this one turned the file that they stand in."""
    lines, antt = [], False
    for line in text.split("\n"):
        if line.startswith("file:"):
            antt = line.endswith(".antt")
        if line.startswith(("old:", "new:")):
            if antt:
                line = re.sub(r"([\w)\]]) \.(?=[a-z0-9])", r"\1.", line)
            line = line[:4] + turned(line[4:], names)
        lines.append(line)
    return "\n".join(lines)


def files():
    for folder, dirs, names in os.walk("crates"):
        dirs[:] = sorted(d for d in dirs if d != "out")
        for name in sorted(names):
            yield os.path.join(folder, name)


def main():
    if not os.path.isdir("crates"):
        sys.exit("respell: run it at the top of the repository")
    changed = 0
    for path in files():
        if not path.endswith((".antt", ".rt", ".edit")):
            continue
        with open(path, encoding="utf-8") as f:
            text = f.read()
        names = names_for(path)
        if path.endswith(".edit"):
            new = edit(text, names)
        else:
            mark = "--" if path.endswith(".antt") else "//"
            new = code(text, names, mark)
        if new != text:
            changed += 1
            with open(path, "w", encoding="utf-8") as f:
                f.write(new)
    print(f"respell: {changed} files")


main()
