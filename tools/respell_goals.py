#!/usr/bin/env python3
"""Brings the names that Rattle makes to today's spelling, in the proofs of functions (crates/NAME/proofs/F/).

usage: python3 tools/respell_goals.py      at the top of the repository, once

A dash joins the parts of such a name, and a name from the source keeps its underscores. Older proofs have a dash in
both places. So where several parts in a row are together a name of the source, or a word of Rattle's, they are joined again.
"""

import glob
import os
import re

NAME = re.compile(r"(?<![\w'\u25cc-])[A-Za-z_][\w']*(?:[-+][\w']+)+(?![\w'-])")
WORDS = """in_ok in_err in_default overflow_add overflow_sub overflow_mul overflow_shl overflow_shr overflow_cast overflow_step
nonzero_div nonzero_rem slice_bounds offset_bounds invariant_of from_residual""".split()


def source_names(crates):
    names = set(WORDS)
    for path in crates:
        for file in glob.glob(os.path.join(path, "src", "**", "*.rt"), recursive=True):
            with open(file, encoding="utf-8") as f:
                text = re.sub(r"//.*", "", f.read())
            names |= {name for name in re.findall(r"[A-Za-z][A-Za-z0-9]*(?:_[A-Za-z0-9]+)+", text)}
    return names


def joined(name, known):
    out = []
    for piece in re.split(r"(\+)", name):
        parts, made, at = piece.split("-"), [], 0
        while at < len(parts):
            for end in range(len(parts), at, -1):
                if end == at + 1 or "_".join(parts[at:end]) in known:
                    made.append("_".join(parts[at:end]))
                    at = end
                    break
        out.append("-".join(made))
    return "".join(out)


def main():
    known = source_names(glob.glob("crates/*"))
    for path in glob.glob("crates/*/proofs/*/**/*.antt", recursive=True):
        with open(path, encoding="utf-8") as f:
            was = f.read()
        lines = []
        for line in was.split("\n"):
            code, mark, said = line.partition("--")
            lines.append(NAME.sub(lambda m: joined(m.group(0), known), code) + mark + said)
        now = "\n".join(lines)
        if now != was:
            with open(path, "w", encoding="utf-8") as f:
                f.write(now)


if __name__ == "__main__":
    main()
