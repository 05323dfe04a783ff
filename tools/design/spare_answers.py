#!/usr/bin/env python3
"""Which answers of a crate the check finds alone: spare_answers.py CRATE [--margin], at the top of a copy.

It takes every Answers.antt away, checks the crate with holes allowed, and prints the goals that were proved without
their answer. Run it on a copy: it leaves the files away where it is stopped. Take answers out only where both ways,
with --margin and without, find them."""
import pathlib
import re
import subprocess
import sys

crate = pathlib.Path("crates") / sys.argv[1]
flags = [a for a in sys.argv[2:] if a.startswith("--")]
files = {p: p.read_text() for p in sorted(crate.glob("proofs/**/Answers.antt"))}
for path in files:
    path.unlink()
try:
    run = subprocess.run(["rt", "check", "--allow-holes", "--jobs", "4", *flags], cwd=crate, capture_output=True, text=True)
finally:
    for path, text in files.items():
        path.write_text(text)
log = run.stdout + run.stderr
pathlib.Path(f"/tmp/spare_{sys.argv[1]}.log").write_text(log)
left = {}
for m in re.finditer(r"expected answers in \./(proofs/\S+/Answers\.antt)[^\n]*", log):
    left.setdefault(m.group(1), set()).update(re.findall(r"`([^`]+)`", m.group(0).split("did not prove", 1)[-1]))
for m in re.finditer(r"must prove|`([\w+-]+)` of (proofs/\S+/Answers\.antt) must prove", log):
    if m.group(1):
        left.setdefault(m.group(2), set()).add(m.group(1))
spare = total = 0
for path, text in files.items():
    name = str(path.relative_to(crate))
    goals = re.findall(r"^(?:abbrev )?pub ([\w+-]+) : goal\.", text, re.M)
    total += len(goals)
    open_goals = left.get(name, set())
    alone = [g for g in goals if not any(o == g or o.startswith(g + "-clause-") for o in open_goals)]
    spare += len(alone)
    if alone:
        print(f"{name}: {', '.join(alone)}{' (the whole file)' if len(alone) == len(goals) else ''}")
print(f"{sys.argv[1]}: {spare} of {total} answers are found by the check alone")
