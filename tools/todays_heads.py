#!/usr/bin/env python3
"""Gives each crate's root file the line `#![tactic(auto)]`, and each plain type that an older kit's script derived Drop for, Clone and Copy.

usage: python3 tools/todays_heads.py      at the top of the repository, after tools/spell_names.py; then `rt fmt` in each crate
"""

import os

for folder, _, names in os.walk("crates"):
    for name in sorted(names):
        if not name.endswith(".rt") or "/out/" in folder:
            continue
        path = os.path.join(folder, name)
        with open(path, encoding="utf-8") as file:
            old = file.read()
        new = old.replace("#[derive(Drop)]", "#[derive(Clone, Copy)]")
        if name in ("lib.rt", "main.rt") and "#![tactic(auto)]" not in new:
            lines = new.split("\n")
            place = 0
            while lines[place].startswith("//"):
                place += 1
            lines[place:place] = ["#![tactic(auto)]", ""] if lines[place].strip() else ["#![tactic(auto)]"]
            new = "\n".join(lines)
        if new != old:
            with open(path, "w", encoding="utf-8") as file:
                file.write(new)
