#!/usr/bin/env python3
"""Respells the repository's own definitions and lemmas: words in snake case. tools/respell.tsv lists each old name and its new one.

usage: python3 tools/respell.py [ROOT]    (once, after the kit's port.py; ROOT is the top of the repository)

A name with `_lem` behind it is a lemma that would have its definition's name. Names in snake case are turned only in .antt files below proofs/, the
others in src/, specs/, proofs/ and must-fail/.
"""

import os
import re
import sys

HERE = os.path.dirname(os.path.realpath(__file__))
TOKEN = re.compile(r"(?<![\w'-])[A-Za-z_][\w'-]*")
# a lemma and a helper of one file that would have one name; a lemma that is also one of the logic's
HERE_ALONE = {
    "crates/refusals/proofs/Outcomes.antt": {"written_back": "written_back_lem"},
    "crates/table/proofs/Spans.antt": {"not-true": "not_true"},
}


def texts(root):
    for folder, dirs, files in os.walk(os.path.join(root, "crates")):
        dirs[:] = sorted(d for d in dirs if d != "out")
        for f in sorted(files):
            if f.endswith((".rt", ".antt", ".edit")):
                yield os.path.join(folder, f)


def main(argv):
    root = argv[0] if argv else os.path.dirname(HERE)
    with open(os.path.join(HERE, "respell.tsv"), encoding="utf-8") as f:
        names = dict(line.rstrip("\n").split("\t") for line in f)
    plain = {a: b for a, b in names.items() if re.fullmatch(r"[a-z0-9_]+", a)}
    other = {a: b for a, b in names.items() if a not in plain}
    for path in texts(root):
        inside = os.path.relpath(path, root)
        turn = dict(other)
        if "/proofs/" in inside and path.endswith(".antt"):
            turn |= plain
        turn |= HERE_ALONE.get(inside, {})
        with open(path, encoding="utf-8") as f:
            old = f.read()
        lines = []
        for line in old.split("\n"):
            # the path of an edit's file stays
            lines.append(line if line.startswith("file:") else TOKEN.sub(lambda m: turn.get(m.group(), m.group()), line))
        new = "\n".join(lines)
        if new != old:
            with open(path, "w", encoding="utf-8") as f:
                f.write(new)


main(sys.argv[1:])
