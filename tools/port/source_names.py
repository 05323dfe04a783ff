#!/usr/bin/env python3
"""In answers and invariants, the parts of generated names that come from the source get the source's spelling.

usage: python3 tools/port/source_names.py [CRATE..]      at the top of the repository, after respell.py

A goal or a value of a proof context is named after the calls, variables and fields of its function, and these keep their
underscores: `store_block-requires`, `c.min_many`. Older proof files have dashes there. By whole tokens, in
crates/*/proofs/PATH/{Answers,Invariants,Proof}.antt, for the identifiers of the file of src/ that PATH begins with,
and for the words of the toolchain's own (`in_default`, `overflow_add`).
"""

import os
import re
import sys

TOKEN = re.compile(r"[\w'′]+(?:-[\w'′]+)+")
# Rattle's own words in such names.
WORDS = re.compile(r"(?<![\w'′])(?:in-(?:default|ok|err)|overflow-(?:add|sub|mul|cast|shl|shr|neg|div|rem|step)|nonzero-(?:div|rem)|slice-bounds|offset-bounds|invariant-of|type-inv)(?![\w'′])")
IDENT = re.compile(r"\b[A-Za-z]\w*_\w+\b")


def source_of(crate, folder):
    steps = folder.split("/")
    for n in range(len(steps), 0, -1):
        p = os.path.join("crates", crate, "src", *steps[:n]) + ".rt"
        if os.path.exists(p):
            return p
    for root in ("lib.rt", "main.rt"):
        p = os.path.join("crates", crate, "src", root)
        if os.path.exists(p):
            return p
    return None


def main():
    wanted = sys.argv[1:] or sorted(os.listdir("crates"))
    changed = 0
    for crate in wanted:
        top = os.path.join("crates", crate, "proofs")
        for folder, dirs, names in os.walk(top):
            dirs.sort()
            inner = os.path.relpath(folder, top)
            if inner == ".":
                continue
            src = source_of(crate, inner)
            if not src:
                continue
            idents = sorted(set(IDENT.findall(open(src, encoding="utf-8").read())), key=len, reverse=True)
            table = {i.replace("_", "-"): i for i in idents}
            pat = idents and re.compile(r"(?<![\w'′])(?:" + "|".join(re.escape(k) for k in sorted(table, key=len, reverse=True)) + r")(?![\w'′])")
            for n in names:
                if n not in ("Answers.antt", "Invariants.antt", "Proof.antt"):
                    continue
                p = os.path.join(folder, n)
                t = open(p, encoding="utf-8").read()
                brought = set()
                for m in re.finditer(r"^use [^{]*\.\{([^}]*)\}", t, re.M):
                    brought |= {x.strip() for x in m.group(1).split(",")}

                def turn(m):
                    name = WORDS.sub(lambda k: k.group(0).replace("-", "_"), m.group(0))
                    return m.group(0) if m.group(0) in brought else pat.sub(lambda k: table[k.group(0)], name) if pat else name

                new = TOKEN.sub(turn, t)
                if new != t:
                    open(p, "w", encoding="utf-8").write(new)
                    changed += 1
    print(f"{changed} files changed")


if __name__ == "__main__":
    main()
