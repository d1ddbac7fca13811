#!/usr/bin/env python3
"""The laws, public functions with an empty body, that stand on no page for readers: laws.py [--write]

A law for readers stands in docs/LAWS.md, DEFINITIONS.md, PLACES.md, PARTS.md or LIBRARIES.md by its name, also behind its crate's and module's. Each other one stands in docs/SERVICES.md: by its file,
with the crates that cite it. This script makes that page, and tells where the page isn't as it would be made, and which of these laws has no comment."""
import re
import sys
import textwrap
from pathlib import Path

PAGES = ("LAWS.md", "DEFINITIONS.md", "PLACES.md", "PARTS.md", "LIBRARIES.md")
SIGNATURE = re.compile(r"\s*pub (?:const |ghost )?fn (\w+)")
HEAD = """# Laws that serve other crates

Public functions with an empty body, whose contract is a theorem, as in [LAWS.md](LAWS.md) and
[DEFINITIONS.md](DEFINITIONS.md); these stand on no other page. Each stands under its file, where the comment above it
says it in a sentence, with the crates that cite it in brackets. `check/laws.py --write` makes this page.

"""


def laws():
    """File, name and comment of each law, in the order of the files."""
    for path in sorted(Path("crates").glob("*/src/**/*.rt")):
        if path.parts[1].endswith("_tests"):
            continue
        lines = path.read_text(encoding="utf-8").splitlines()
        for at, line in enumerate(lines):
            if line.strip() != "{}":
                continue
            top = next((k for k in range(at, -1, -1) if re.match(r"\s*(pub(\([^)]*\))? )?(const |ghost )?fn ", lines[k])), None)
            name = top is not None and SIGNATURE.match(lines[top])
            if name:
                yield path, name[1], comment(lines, top)


def comment(lines, top):
    """The first sentences of the comment in front of a function."""
    said = []
    while top > 0 and re.match(r"\s*(///|//|#\[)", lines[top - 1]):
        top -= 1
        if lines[top].strip().startswith("///"):
            said.append(lines[top].strip()[3:].strip())
    return " ".join(reversed(said)).split("```")[0].strip()


def users():
    """For each crate: the crates that its line names, the words that its sources call without arguments, and the words that its proofs bring in from each crate's proofs."""
    found = {}
    for line in Path("crates.txt").read_text(encoding="utf-8").splitlines():
        if ":" not in line or line.startswith("#"):
            continue
        name, below = line.split(":")
        name = name.split()[0]
        folder = Path("crates", name)
        code = "\n".join(it.read_text(encoding="utf-8") for it in folder.glob("src/**/*.rt"))
        brought = {}
        for it in [*folder.glob("specs/**/*.antt"), *folder.glob("proofs/**/*.antt")]:
            for use in re.findall(r"^use Rattle\.(\w+)\.proofs\.(.*)$", it.read_text(encoding="utf-8"), re.M):
                brought.setdefault(use[0], set()).update(re.findall(r"\w+", use[1]))
        found[name] = (set(below.split()), set(re.findall(r"\b(\w+)\(\)", code)), brought)
    return found


def rows_of(pages):
    """File, name, comment and the crates that cite it, of each law that isn't on one of the pages, in the order of crates.txt."""
    known = users()
    order = list(known)
    for path, name, says in sorted(laws(), key=lambda it: order.index(it[0].parts[1])):
        crate = path.parts[1]
        if not re.search(rf"`(?:\w+::)*{name}`", pages):
            yield path, name, says, [it for it in order if crate in known[it][0] and (name in known[it][1] or name in known[it][2].get(crate, ()))]


def wrapped(text):
    return "\n".join(textwrap.wrap(text, 120, subsequent_indent="  ", break_on_hyphens=False, break_long_words=False))


def page():
    rows, found = list(rows_of("".join(Path("docs", it).read_text(encoding="utf-8") for it in PAGES))), {}
    for path, name, _, on in rows:
        found.setdefault(path, []).append(f"`{name}` ({', '.join(on)})" if on else f"`{name}`")
    lines = [wrapped(f"- [{Path(*path.parts[1:])}](../{path}): {', '.join(names)}") for path, names in found.items()]
    return HEAD + "\n".join(lines) + "\n", rows


def main():
    text, rows = page()
    where = Path("docs/SERVICES.md")
    if "--write" in sys.argv:
        where.write_text(text, encoding="utf-8")
    told = [] if where.exists() and where.read_text(encoding="utf-8") == text else ["docs/SERVICES.md isn't as check/laws.py --write makes it"]
    told += [f"{path}: {name} has no comment" for path, name, says, _ in rows if not says]
    print(*told, f"laws: {len(rows)} beside those of the pages", sep="\n")
    return 1 if told else 0


sys.exit(main())
