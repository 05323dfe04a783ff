#!/usr/bin/env python3
"""Signatures, clauses and definitions, old and new side by side: changes.py OLD-FOLDER, at the top of a checkout.

It reads what the kit's contracts.py finds by text, and leaves out of the full listing what differs only by the
substitutions below, of which it gives the names."""
import json
import re
import subprocess
import sys

RENAMED = [(r"\bSlot\b", "(Option View)"), (r"\bEmpty\b", "None"), (r"\bHeld\b", "Some"),
           (r"\(Slice (?:f b s m|f d s y|from backward (?:step|by) many)\)", "(Slice s)")]


def loose(text):
    for old, new in RENAMED:
        text = re.sub(old, new, text)
    return re.sub(r"[()\s]", "", text)


out = subprocess.run([sys.executable, "/opt/rattle/port/contracts.py", sys.argv[1], ".", "--json"],
                     capture_output=True, text=True, check=True).stdout
data = json.loads(out)


def clauses(items):
    return [f"{kind} {name + ' ' if name else ''}{{ {text} }}" for kind, group in items for name, text in group]


print(f"Functions {data['functions'][0]} before, {data['functions'][1]} now; contracts the same "
      f"{data['contracts the same']}; by text, none has fewer `ensures` ({len(data['fewer ensures'])}), none more "
      f"`requires` ({len(data['more requires'])}), none is no longer public ({len(data['no longer pub'])}).\n")
print("### Clauses\n")
print("```diff")
for entry in data["contracts changed"]:
    name, old_req, old_ens, new_req, new_ens = entry[:5]
    print(name)
    old = clauses([("requires", old_req), ("ensures", old_ens)])
    new = clauses([("requires", new_req), ("ensures", new_ens)])
    for line in old:
        if line not in new:
            print("-", line)
    for line in new:
        if line not in old:
            print("+", line)
print("```\n\n### Signatures\n\n```diff")
for name, old, new in (e[:3] for e in data["signatures changed"]):
    print(f"{name}\n- {old}\n+ {new}")
print("```\n\n### Functions that went, or are found under another name\n")
names = {}
for line in data["functions not found again"]:
    crate, path, rest = line.split(" ", 2)
    names.setdefault(f"{crate}/{path}", []).append(rest.split(" (")[0])
for path, group in sorted(names.items()):
    print(f"- `{path}`: {', '.join(f'`{g}`' for g in group)}")
print("\n### Definitions\n")
gone = ", ".join(f"{c} `{n}`" for c, n in data["definitions"]["gone"])
print(f"Gone: {gone}.\n")
same, other = {}, []
for crate, name, old, new in (e[:4] for e in data["definitions"]["changed"]):
    old, new = old[0], new[0]
    if loose(old) == loose(new):
        same.setdefault(crate, []).append(name)
    else:
        other.append((crate, name, old, new))
print("Changed only by `Slot` → `Option View` (`Empty` → `None`, `Held` → `Some`) or by `Slice f b s m` → `Slice s`:\n")
for crate, group in same.items():
    print(f"- {crate}: {', '.join(f'`{n}`' for n in group)}")
print("\n```diff")
for crate, name, old, new in other:
    print(f"{crate} {name}\n- {old}\n+ {new}")
print("```")
