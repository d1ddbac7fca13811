#!/usr/bin/env python3
"""The clauses of every public call, by name: clauses.py [--write]

Prints, or writes into check/clauses.txt, a line for each public function, method and function of a public trait or an implementation of one: its crate,
its module and name, and the names of its conditions (requires) and clauses (ensures). Without --write it fails where check/clauses.txt says otherwise: so a
change that loses a clause shows it in that file."""
import re
import sys
from pathlib import Path

LIST = Path("check/clauses.txt")
HEAD = re.compile(r"^(?P<indent>[ \t]*)(?P<pub>pub (?:unsafe )?)?(?:unsafe )?(?:const )?fn (?P<name>\w+)", re.M)
BLOCK = re.compile(r"^(?P<pub>pub )?(?:unsafe )?(?P<kind>trait|impl)\b(?P<rest>[^{;]*)\{", re.M)
CLAUSE = re.compile(r"\b(requires|ensures)\*?\s+(\w+)?\s*\{")


def end_of_group(text, at):
    depth = 0
    while True:
        depth += {"{": 1, "}": -1}.get(text[at], 0)
        at += 1
        if depth == 0:
            return at


def clauses_of(text, at):
    """The names of a signature's conditions and clauses: from behind the function's name up to its body."""
    names = {"requires": [], "ensures": []}
    while True:
        found = re.compile(r"[{;]").search(text, at)
        if not found:
            return names
        clause = None
        for clause in CLAUSE.finditer(text, at, found.end()):
            pass
        if clause is None or clause.end() != found.end():
            return names
        names[clause[1]].append(clause[2] or "_")
        at = end_of_group(text, found.start())


def lines_of(path):
    pieces = r'//[^\n]*|b?"(?:\\.|[^"\\])*"|b?\'(?:\\.|[^\'\\])\''
    text = re.sub(pieces, lambda it: "" if it[0].startswith("//") else '""', path.read_text(encoding="utf-8"), flags=re.S)
    crate, module = path.parts[1], "::".join(path.with_suffix("").parts[3:])
    blocks = [(it.start(), end_of_group(text, it.end() - 1), it) for it in BLOCK.finditer(text)]
    for head in HEAD.finditer(text):
        around = next((it for start, end, it in blocks if start < head.start() < end), None)
        of_trait = around is not None and (around["pub"] if around["kind"] == "trait" else " for " in around["rest"])
        if not (head["pub"] or of_trait):
            continue
        owner = ""
        if around is not None:
            owner = re.sub(r"\s+", " ", re.sub(r"^\s*<[^{]*?>\s+(?=\w)", "", around["rest"])).strip()
            owner = re.sub(r"\bwhere\b.*", "", owner).strip() + "::"
        names = clauses_of(text, head.end())
        told = [f"{word} {' '.join(names[word])}" for word in ("requires", "ensures") if names[word]]
        yield f"{crate} {module} {owner}{head['name']}: {'; '.join(told) or 'no clause'}"


def main():
    paths = sorted(it for it in Path("crates").glob("*/src/**/*.rt") if not it.parts[1].endswith("_tests"))
    lines = sorted(line for path in paths for line in lines_of(path))
    text = "\n".join(lines) + "\n"
    if "--write" in sys.argv:
        LIST.write_text(text, encoding="utf-8")
        return 0
    before = LIST.read_text(encoding="utf-8").splitlines() if LIST.exists() else []
    for line in sorted(set(before) - set(lines)):
        print(f"gone or changed: {line}")
    for line in sorted(set(lines) - set(before)):
        print(f"new or changed: {line}")
    print(f"clauses: {sum(line.count(' ') for line in lines)} words of {len(lines)} public calls")
    return 0 if lines == before else 1


sys.exit(main())
