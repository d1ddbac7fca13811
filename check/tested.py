#!/usr/bin/env python3
"""docs/TESTED.md names each must-fail edit once and no other, and each crate of tests; and no crate has exactly two edits, which would cost a check more than one: tested.py"""
import re
import sys
from collections import Counter
from pathlib import Path

PAGE = Path("docs/TESTED.md")


def told_of_edits(page):
    named = Counter(re.findall(r"\]\(\.\./(crates/[^)\s]+\.edit)\)", page))
    there = {str(it) for it in Path("crates").glob("*/must-fail/*.edit")}
    told = [f"{PAGE} lacks {it}" for it in sorted(there - set(named))]
    told += [f"{PAGE} names {it}, which isn't there" for it in sorted(set(named) - there)]
    told += [f"{PAGE} names {it} {times} times" for it, times in sorted(named.items()) if times > 1]
    crates = Counter(it.split("/")[1] for it in there)
    return told + [f"{it} has two must-fail edits: have one, or three and more" for it, number in sorted(crates.items()) if number == 2], there


def told_of_tests(page):
    named = set(re.findall(r"\bam_\w+_tests\b", page))
    there = {it.name for it in Path("crates").glob("am_*_tests")}
    return [f"{PAGE} lacks {it}" for it in sorted(there - named)] + [f"{PAGE} names {it}, which isn't there" for it in sorted(named - there)]


def main():
    page = PAGE.read_text(encoding="utf-8")
    told, edits = told_of_edits(page)
    told += told_of_tests(page)
    print(*told, f"tested: {len(edits)} must-fail edits in {len({it.split('/')[1] for it in edits})} crates, {len(told)} wrong", sep="\n")
    return 1 if told or not edits else 0


sys.exit(main())
