#!/usr/bin/env python3
"""tidy.py [ROOT]: take out of each proofs/**/Proof.antt what only served while it was written.

The lines that name a place of the source, and `use` lines whose names the file does not use.
Machine-made files are left alone.
"""
import os
import re
import sys

root = sys.argv[1] if len(sys.argv) > 1 else "."


def tidied(text):
    lines = [l for l in text.split("\n") if not re.fullmatch(r"-- src/\S+\.rt:\d+:\d+", l)]
    kept = []
    for l in lines:
        m = re.fullmatch(r"use ([^\s{}]+) as (\S+)", l)
        if m:
            name = m.group(2)
            rest = [x for x in lines if x is not l and not x.startswith("use ")]
            if not any(re.search(r"(?<![\w·-])" + re.escape(name) + r"(?= ?\.)", x) for x in rest):
                continue
        kept.append(l)
    return re.sub(r"\n{3,}", "\n\n", "\n".join(kept))


for folder, subs, names in os.walk(os.path.join(root, "crates")):
    subs[:] = [s for s in subs if s != "target"]
    if "Proof.antt" in names:
        path = os.path.join(folder, "Proof.antt")
        with open(path, encoding="utf-8") as f:
            text = f.read()
        if "machine-made" in text[:200].lower():
            continue
        new = tidied(text)
        if new != text:
            with open(path, "w", encoding="utf-8") as f:
                f.write(new)
            print("tidied", os.path.relpath(path, root))
