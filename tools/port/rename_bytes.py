#!/usr/bin/env python3
"""The crate `bytes` gets the name `encoding`: the toolchain has a library of the old name.

usage: python3 tools/port/rename_bytes.py      at the top of the repository, once, after port.py
"""

import os
import re

os.rename("crates/bytes", "crates/encoding")
for folder, dirs, names in os.walk("crates"):
    dirs[:] = [d for d in dirs if d not in ("out", "data")]
    for n in names:
        if not n.endswith((".rt", ".antt", ".edit")):
            continue
        p = os.path.join(folder, n)
        t = open(p, encoding="utf-8").read()
        new = re.sub(r"\bRattle\.bytes\.", "Rattle.encoding.", t)
        new = re.sub(r"(?<![\w:.])bytes::(?=[a-z]\w*::|[a-z_]+;|[A-Z])", "encoding::", new)
        if new != t:
            open(p, "w", encoding="utf-8").write(new)
t = open("crates.txt", encoding="utf-8").read()
open("crates.txt", "w", encoding="utf-8").write(re.sub(r"\bbytes\b", "encoding", t))
