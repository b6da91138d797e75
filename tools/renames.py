#!/usr/bin/env python3
"""Brings the names of goals and of known facts in one crate's proof files to those that Rattle makes today.
usage: renames.py CRATE, at the top of the repository. It asks `rt check --generated` for each function's names, and turns a
word of that function's files that is none of them, but is one of them when `-`, `_` and `·` are read alike."""

import glob
import json
import os
import re
import subprocess
import sys
import tempfile

WORD = re.compile(r"(?<![A-Za-z_0-9₀-₉'ℕℤ\-·+])([A-Za-z_][A-Za-z_0-9'+]*(?:[-·][A-Za-z_0-9'+]+)*)")


def strings(x, out):
    if isinstance(x, str):
        out.add(x)
    elif isinstance(x, dict):
        for k, v in x.items():
            out.add(k)
            strings(v, out)
    elif isinstance(x, list):
        for v in x:
            strings(v, out)
    return out


def alike(s):
    return re.sub(r"[-·_]", "_", s)


def main(crate):
    with tempfile.TemporaryDirectory() as d:
        subprocess.run(["rt", "check", "--generated", d, "--old-names"], cwd="crates/" + crate, stdout=subprocess.DEVNULL, stderr=subprocess.DEVNULL)
        made = json.load(open(d + "/names.json"))
    head = "Rattle-" + crate + "-proofs."
    for key, entry in made.items():
        if not key.startswith(head):
            continue
        place = key[len(head):].rsplit(".", 1)[0].replace("+", "").split(".")
        if place and place[0] in ("the-impl",):
            continue
        names = strings(entry, set())
        parts = set()
        for n in names:
            parts.add(n)
            for p in n.split("+"):
                parts.add(p)
        by = {}
        for n in parts:
            by.setdefault(alike(n), set()).add(n)
        for f in glob.glob("crates/" + crate + "/proofs/**/*" + place[-1] + "/*.antt", recursive=True):
            at = os.path.dirname(f)[len("crates/" + crate + "/proofs/"):].replace("+", "").split("/")
            if at != place:
                continue
            text = open(f, encoding="utf-8").read()

            def one(m):
                w = m[1]
                if w in parts or not re.search(r"[-·]", w):
                    return w
                new = by.get(alike(w), set())
                return next(iter(new)) if len(new) == 1 else w

            lines = [l if l.lstrip().startswith("--") or re.match(r"^use Rattle\.(?!" + crate + r"\.proofs\.)", l) else WORD.sub(one, l) for l in text.split("\n")]
            new = "\n".join(lines)
            if new != text:
                open(f, "w", encoding="utf-8").write(new)
                print(f)


if __name__ == "__main__":
    main(sys.argv[1])
