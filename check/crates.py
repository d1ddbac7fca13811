#!/usr/bin/env python3
"""Crates, as crates.txt lists them, against docs/CRATES.md: crates.py

Every crate stands in docs/CRATES.md once, in front of an item under the heading of its layer, in the order of crates.txt."""
import re
import sys
from pathlib import Path


def layers():
    """The layers of crates.txt with their crates."""
    found, layer = {}, None
    for line in Path("crates.txt").read_text(encoding="utf-8").splitlines():
        if line.startswith("# ") and "One line a crate" not in line:
            layer = line[2:].partition(":")[0]
            found[layer] = []
        elif ":" in line and not line.startswith("#"):
            found[layer].append(line.split(":")[0].strip())
    return found


def told_of_page(found):
    page, told, layer = [], [], None
    for line in Path("docs/CRATES.md").read_text(encoding="utf-8").splitlines():
        if line.startswith("## "):
            layer = line[3:]
        elif line.startswith("- ") and layer:
            page += [(layer, it) for it in re.findall(r"^- \*\*(am\w+)\*\*: ", line)]
    want = [(layer, crate) for layer, crates in found.items() for crate in crates]
    told += [f"docs/CRATES.md lacks {crate}, of {layer}" for layer, crate in want if (layer, crate) not in page]
    told += [f"docs/CRATES.md has {crate} under {layer}" for layer, crate in page if (layer, crate) not in want]
    if not told and page != want:
        first = next(both for both in zip(page, want) if both[0] != both[1])
        told.append(f"docs/CRATES.md has {first[0][1]} where crates.txt has {first[1][1]}")
    return told


def main():
    found = layers()
    told = told_of_page(found)
    print(*told, f"crates: {sum(map(len, found.values()))} in {len(found)} layers", sep="\n")
    return 1 if told else 0


sys.exit(main())
