#!/usr/bin/env python3
"""Lines of documents wrap at one width: width.py. Tables, blocks of code and lines without a space to break at are as long as they are."""
import sys
from pathlib import Path

WIDTH = 120


def long_lines(path):
    fenced = False
    for number, line in enumerate(path.read_text(encoding="utf-8").splitlines(), 1):
        if line.lstrip().startswith("```"):
            fenced = not fenced
        elif not fenced and len(line) > WIDTH and not line.startswith(("|", "#", "    ")) and " " in line.strip()[:WIDTH]:
            yield f"{path}:{number}: {len(line)} columns"


def main():
    told = [it for path in [Path("README.md"), *sorted(Path("docs").glob("*.md"))] if path.name != "BELIEVED.md" for it in long_lines(path)]
    print(*told, f"width: {len(told)} lines of documents above {WIDTH} columns", sep="\n")
    return 1 if told else 0


sys.exit(main())
