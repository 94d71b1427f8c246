#!/usr/bin/env python3
"""Brings the repository's own definitions and lemmas to snake case, and types to camel case, by the table beside this file.

usage: python3 tools/respell.py      at the top of the repository, once

A line of respell.names is an old name and its new one. A name is replaced where it stands whole: in each .antt file,
in the clauses and `ghost use` lines of each .rt file, and between backticks in README.md and docs/*.md, but for PORT.md.
In comments only names in camel case are replaced, since words with a dash are English there.
"""

import os
import re

HERE = os.path.dirname(os.path.realpath(__file__))
NAME = re.compile(r"(?<![\w'\u25cc-])[A-Za-z_][\w']*(?:-[\w'+]+)*(?![\w'-])")


def table():
    with open(os.path.join(HERE, "respell.names"), encoding="utf-8") as f:
        return dict(line.split() for line in f)


def turned(text, names):
    return NAME.sub(lambda m: names.get(m.group(0), m.group(0)), text)


def turned_lines(text, names, comment):
    camel = {old: new for old, new in names.items() if "-" not in old}
    out = []
    for line in text.split("\n"):
        at = line.find(comment)
        code, said = (line, "") if at < 0 else (line[:at], line[at:])
        out.append(turned(code, names) + turned(said, camel))
    return "\n".join(out)


def turned_page(text, names):
    return re.sub(r"`[^`\n]*`", lambda m: turned(m.group(0), names), text)


def rewrite(path, turn):
    with open(path, encoding="utf-8") as f:
        was = f.read()
    now = turn(was)
    if now != was:
        with open(path, "w", encoding="utf-8") as f:
            f.write(now)


def main():
    names = table()
    for folder, dirs, files in os.walk("crates"):
        dirs[:] = [d for d in dirs if d != "out"]
        for name in files:
            path = os.path.join(folder, name)
            if name.endswith(".antt"):
                rewrite(path, lambda text: turned_lines(text, names, "--"))
            elif name.endswith(".rt"):
                rewrite(path, lambda text: turned_lines(text, names, "//"))
    # PORT.md tells the old names
    pages = [os.path.join("docs", name) for name in os.listdir("docs") if name != "PORT.md"] + ["README.md"]
    for path in pages:
        if path.endswith(".md"):
            rewrite(path, lambda text: turned_page(text, names))


if __name__ == "__main__":
    main()
