#!/usr/bin/env python3
"""Brings the names that specs/ and proofs/ declare to one spelling: words in snake case, types in camel case.

usage: python3 tools/port/respell.py [--dry]      at the top of the repository, once, after port.py

A name is declared where a line of an .antt file begins with it and goes on with its type, a record's or a data type's
parameters, or is a field or a constructor. Names of generated goals (answers and invariants, `goal.NAME`) and names that
come from a library are left as they are. It goes by whole tokens, over crates/*/{specs,proofs,src,must-fail}; strings of
.rt files are left. It says what would fall together, and then changes nothing.
"""

import os
import re
import sys

TOKEN = re.compile(r"[\w'′]+(?:-[\w'′]+)*")
DECLARED = re.compile(r"^\s*(?:(?:abbrev|unfoldable|opaque|pub|data|record|instance)\s+)*([\w'′]+(?:-[\w'′]+)*)(?=\s+[:({])")
USE = re.compile(r"^\s*(?:pub\s+)?(?:ghost\s+)?(?:pub\s+)?use\s+([^{;\s]+?)\.\{([^}]*)\}", re.M)
GENERATED = re.compile(r"\b(?:goal|given|need|tie)\.([\w'′]+(?:-[\w'′]+)*)")
# Names whose plain respelling is taken by a library in the same file.
OTHERWISE = {"is-nan": "written_nan"}
STRING = re.compile(r'b?"(?:[^"\\]|\\.)*"')


def files(suffixes):
    for folder, dirs, names in os.walk("crates"):
        dirs[:] = sorted(d for d in dirs if d not in ("out", "target", "data"))
        for n in sorted(names):
            if n.endswith(suffixes):
                yield os.path.join(folder, n)


def respelled(name):
    parts = re.split(r"-", name)
    if name[:1].isupper():
        return "".join(p[:1].upper() + p[1:] for p in parts)
    return OTHERWISE.get(name) or "_".join(re.sub(r"([a-z0-9])([A-Z])", r"\1_\2", p).lower() for p in parts).replace("′", "'")


def main():
    own = {d for d in os.listdir("crates") if os.path.isdir(os.path.join("crates", d))}
    text = {p: open(p, encoding="utf-8").read() for p in files((".antt", ".rt", ".edit"))}
    declared, generated, foreign, brought = {}, set(), {}, {}
    for p, t in text.items():
        generated |= set(GENERATED.findall(t))
        for path, names in USE.findall(t):
            segs = path.split(".")
            if segs[0] == "Rattle" and len(segs) > 1 and segs[1] in own:
                continue
            for n in names.split(","):
                n = n.strip().split(" as ")[0].strip()
                foreign.setdefault(n, p)
                brought.setdefault(p, set()).add(n)
        if p.endswith(".antt"):
            for line in t.split("\n"):
                m = DECLARED.match(line)
                if m and not line.lstrip().startswith(("let ", "use ", "--")):
                    declared.setdefault(m.group(1), p)
    table = {}
    for n, p in declared.items():
        r = respelled(n)
        if r == n or n in generated:
            continue
        if n in foreign:
            print(f"look: {n} of {p} is a library's name too, as in {foreign[n]}: kept where it is brought from there")
        table[n] = r
    bad = 0
    back = {}
    for n, r in sorted(table.items()):
        if r in back:
            print(f"fall together: {n} and {back[r]} as {r}")
            bad += 1
        back[r] = n
        if r in declared:
            print(f"fall together: {n} ({declared[n]}) with {r} ({declared[r]})")
            bad += 1
        both = [p for p, names in brought.items() if r in names and n not in names and n in TOKEN.findall(text[p])]
        if both:
            print(f"fall together: {n} ({declared[n]}) with a library's {r} ({both[0]})")
            bad += 1
    print(f"{len(table)} names, {bad} fall together")
    if "--list" in sys.argv:
        for n, r in sorted(table.items()):
            print(n, r)
    if bad and "--force" not in sys.argv or "--dry" in sys.argv:
        return 1 if bad else 0

    def turn(s, p):
        left = brought.get(p, set())
        return TOKEN.sub(lambda m: m.group(0) if m.group(0) in left else table.get(m.group(0), m.group(0)), s)

    changed = 0
    for p, t in text.items():
        if p.endswith(".antt"):
            new = turn(t, p)
        else:
            new, at = "", 0
            for m in STRING.finditer(t):
                new += turn(t[at : m.start()], p) + m.group(0)
                at = m.end()
            new += turn(t[at:], p)
        if new != t:
            open(p, "w", encoding="utf-8").write(new)
            changed += 1
    print(f"{changed} files changed")
    return 0


if __name__ == "__main__":
    raise SystemExit(main())
