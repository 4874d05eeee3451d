#!/usr/bin/env python3
"""Gives every struct and enum of plain values `#[derive(Clone, Copy)]` in place of `#[derive(Drop)]`.

usage: tools/derive_copy.py        at the top of the repository

In the older Rattle such values were copied without a word. What holds a `&mut` keeps `Drop`, and is printed.
"""

import os
import re

ITEM = re.compile(r"#\[derive\(Drop\)\]\n((?:#\[[^\n]*\]\n)*)((?:pub )?(?:struct|enum) (\w+)[^{;]*(?:\{.*?\n\}|;))", re.S)

for folder, dirs, names in os.walk("crates"):
    dirs[:] = [d for d in dirs if d != "out"]
    for name in sorted(names):
        if not name.endswith(".rt"):
            continue
        path = os.path.join(folder, name)
        with open(path, encoding="utf-8") as f:
            text = f.read()

        def put(m):
            if "&mut" in m.group(2):
                print(f"{path}: {m.group(3)} keeps Drop")
                return m.group(0)
            return "#[derive(Clone, Copy)]\n" + m.group(1) + m.group(2)

        new = ITEM.sub(put, text)
        if new != text:
            with open(path, "w", encoding="utf-8") as f:
                f.write(new)
