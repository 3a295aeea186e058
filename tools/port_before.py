#!/usr/bin/env python3
"""Readies the tree of e11482e for the kit's port.py: run once at the top of a checkout, before it.

port.py leaves out its steps for older spellings where a proof file has a name in snake case. Here those are the
aliases of functions in crates/claims/proofs/*Uniqueness.antt alone: they get dashes, as every other name of those files has.
"""

import glob
import re

for path in sorted(glob.glob("crates/claims/proofs/*Uniqueness.antt")):
    with open(path, encoding="utf-8") as f:
        text = f.read()
    aliases = set(re.findall(r"(?m)^use .* as (\w*_\w*)$", text))
    for name in sorted(aliases, key=len, reverse=True):
        dashed = name.replace("_", "-")
        text = re.sub(rf"(?m)^(use .* as ){name}$", rf"\g<1>{dashed}", text)
        text = re.sub(rf"(?<![\w.·-]){name}(?= \.|\.|[ )])", dashed, text)
    with open(path, "w", encoding="utf-8") as f:
        f.write(text)
