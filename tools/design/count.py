#!/usr/bin/env python3
"""Counts forms of code in crates/*/src: count.py [--list] [POINT..] at the top of a checkout.

Each line is a point, a form and how many places have it; with --list, the places follow. The forms are looked for
by their text, so a place found is a place to read."""
import collections
import pathlib
import re
import sys

LIST = "--list" in sys.argv
POINTS = [a for a in sys.argv[1:] if not a.startswith("--")]
FILES = {p: p.read_text() for p in sorted(pathlib.Path("crates").glob("*/src/**/*.rt"))}
FN = re.compile(r"^( *)(?:pub(?:\([a-z]+\))? )?fn (\w+)(.*?)^\1\}", re.M | re.S)


def functions():
    for path, text in FILES.items():
        for m in FN.finditer(text):
            body = m.group(3)
            head, _, rest = body.partition("\n" + m.group(1) + "{\n")
            yield path, text[: m.start()].count("\n") + 1, m.group(2), head, rest


def find(pattern, flags=re.M | re.S):
    return [(p, t[: m.start()].count("\n") + 1, m.group(0).split("\n")[0].strip())
            for p, t in FILES.items() for m in re.finditer(pattern, t, flags)]


def show(point, form, places):
    if POINTS and point not in POINTS:
        return
    print(f"{point} {form}: {len(places)}")
    if LIST:
        for path, line, text in places:
            print(f"    {path}:{line}: {text}")


# 1: Option, Result, `?`, enums
show("1", "`let .. else` that returns None", find(r"let [^;]*?else \{\s*return None;\s*\}"))
show("1", "`let .. else` that returns Ok(None)", find(r"let [^;]*?else \{\s*return Ok\(None\);\s*\}"))
show("1", "arm that passes an error on", find(r"Err\(\w+\) => (?:return )?(?:Err\(|\{\s*return)"))
show("1", "`if let Some` that returns Some", find(r"if let Some\((\w+)\) = [^{]*\{\s*return Some\(\1\);"))
show("1", "enum of two or three variants, some with a value", [
    (p, n, t) for p, n, t in find(r"enum \w+ \{.*?^\}")
    for body in [re.search(r"enum " + re.escape(t.split()[-2]) + r" \{(.*?)^\}", FILES[p], re.M | re.S)]
    if body for variants in [re.findall(r"^    [A-Z]\w*(?:\(.*?\))?,", body.group(1), re.M)]
    if len(variants) in (2, 3) and any("(" in v for v in variants)])
show("1", "bool that says whether something was changed", [
    (p, n, f) for p, n, f, head, _ in functions() if "-> bool" in head and "&mut" in head])
show("1", "match from variants to number literals, or back", [
    (p, n, f) for p, n, f, _, rest in functions()
    if len(re.findall(r"=> \d+,", rest)) >= 3 or len(re.findall(r"^ +\d+ => ", rest, re.M)) >= 3])
show("1", "bool field beside a value", find(r"^    pub (?:new|named|clean|\w*flag): bool"))

# 2: twins
shapes = collections.defaultdict(list)
for p, n, f, head, rest in functions():
    text = re.sub(r"\s+", " ", rest)
    if len(text) < 60:
        continue
    text = re.sub(r"b?\"[^\"]*\"|b'.'|\b\d[\d_a-fx]*\b", "#", text)
    names = {}
    text = re.sub(r"[A-Za-z_]\w*", lambda m: m.group(0) if m.group(0) in (
        "let", "for", "in", "if", "else", "return", "match", "while", "mut", "as") else
        names.setdefault(m.group(0), f"v{len(names)}"), text)
    shapes[text].append((p, n, f))
show("2", "functions of the same shape", [x for xs in shapes.values() if len(xs) > 1 for x in xs])
same = collections.defaultdict(list)
for p, n, f, head, rest in functions():
    same[f].append((p, n, f))
show("2", "functions of the same name", [
    x for f, xs in same.items() if len(xs) > 1 and f not in ("main", "number", "apply", "get", "fmt", "from", "next")
    for x in xs])
structs = collections.defaultdict(list)
for p, t in FILES.items():
    for m in re.finditer(r"struct (\w+)(?:<[^>]*>)? \{(.*?)^\}", t, re.M | re.S):
        fields = " ".join(sorted(re.findall(r"(\w+: [^,]+),", re.sub(r"//.*", "", m.group(2)))))
        structs[fields].append((p, t[: m.start()].count("\n") + 1, m.group(1)))
show("2", "structs of the same fields", [x for xs in structs.values() if len(xs) > 1 for x in xs])

# 3: loops that count an index
show("3", "`for` over a range", find(r"^ *for \w+ in [^{\n]*\.\.[^{\n]*\{"))
show("3", "`while` that counts", [
    (p, n, f) for p, n, f, _, rest in functions() if re.search(r"while [^{]*\{.*?\w+ \+= ", rest, re.S)])

# 4: equality, order, copying, conversion, printing
show("4", "function from an enum to a number or a word, or back", [
    (p, n, f) for p, n, f, head, rest in functions()
    if len(re.findall(r"::\w+(?:\([^)]*\))? => (?:\d+|b\"|\")", rest)) >= 3
    or len(re.findall(r"(?:\d+|b?\"\w+\") => (?:Some\()?(?:\w+::)", rest)) >= 3])
show("4", "match that only answers true or false", [
    (p, n, f) for p, n, f, head, rest in functions()
    if "-> bool" in head and re.search(r"=> (?:true|false),", rest)])
show("4", "equality or a copy by hand", [
    (p, n, f) for p, n, f, _, _ in functions() if re.match(r"same_|copy$|equal|is_same", f)])

# 5: clauses and parameters that stand together
clauses = collections.defaultdict(set)
groups = collections.defaultdict(set)
where = {}
for p, n, f, head, _ in functions():
    crate = p.parts[1]
    where[(p, f)] = (p, n, f)
    for c in re.findall(r"requires (?:\w+ )?\{ (.*) \}", head):
        clauses[(crate, c)].add((p, f))
    params = re.findall(r"(\w+): ([^,()]+?)(?=,|\)|$)", head.split("->")[0], re.M)
    for i in range(len(params) - 2):
        groups[(crate, tuple(params[i:i + 3]))].add((p, f))
show("5", "`requires` that stands in three functions or more of a crate", [
    (where[next(iter(fs))][0], where[next(iter(fs))][1], f"{len(fs)} times: {c}")
    for (crate, c), fs in sorted(clauses.items()) if len(fs) >= 3])
show("5", "three parameters that stand together in three functions or more of a crate", [
    (where[next(iter(fs))][0], where[next(iter(fs))][1], f"{len(fs)} times: {', '.join(a for a, _ in ps)}")
    for (crate, ps), fs in sorted(groups.items()) if len(fs) >= 3])

# 6: buffers with a length beside, parallel arrays
show("6", "array field with a length beside it", [
    (p, n, t) for p, n, t in find(r"struct \w+(?:<[^>]*>)? \{[^}]*: \[[^}]*\}")])
show("6", "array by value as a parameter or a result", [
    (p, n, f) for p, n, f, head, _ in functions() if re.search(r"[^&t] \[\w+; \w+\]", head)])

# 7: switches on which step to run
show("7", "match that calls another function in each arm", [
    (p, n, f) for p, n, f, _, rest in functions()
    if len(re.findall(r"=> (?:\w+(?:::)?(?:<[^>]*>)?)+\(", rest)) >= 4])

# 8: proofs
if not POINTS or "8" in POINTS:
    answers = 0
    lines = 0
    for path in pathlib.Path("crates").glob("*/proofs/**/*.antt"):
        text = path.read_text()
        lines += text.count("\n")
        if path.name == "Answers.antt":
            answers += len(re.findall(r"^(?:abbrev )?pub [^:\n]+ : goal\.", text, re.M))
    print(f"8 answers in Answers.antt: {answers}")
    print(f"8 lines in proofs/: {lines}")
