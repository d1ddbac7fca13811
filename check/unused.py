#!/usr/bin/env python3
"""Public items that no code names: neither a crate above, nor their own crate outside their definition.

A law, which is a public function with an empty body, is its own use: it is proved. A type is used where a contract, a
definition or a proof names it; a function or a constant only where code does. Names alone are compared, so of two methods
with one name both count as used where one is."""
import re, sys
from pathlib import Path

# Each name that may stand unused, with the reason.
ALLOWED = {}

ITEM = re.compile(r"^([ \t]*)pub (?:unsafe )?(fn|struct|enum|trait|type|const|static) (\w+)", re.M)
TYPES = {"struct", "enum", "trait", "type"}


def end_of_group(text, at):
    """The end of the brace group that begins at `at`."""
    depth = 0
    while True:
        depth += {"{": 1, "}": -1}.get(text[at], 0)
        at += 1
        if depth == 0:
            return at


def code_of(text):
    """The text without comments, strings, ghost items, contracts and re-exports."""
    text = re.sub(r'"(?:\\.|[^"\\])*"', '""', text, flags=re.S)
    text = re.sub(r"//[^\n]*|\bghost use [^;]*;|\bpub use [^;]*;", "", text)
    while m := re.search(r"^\s*(requires|ensures)\b[^{\n]*\{|\bghost \w+ = \{", text, re.M):
        text = text[: m.start()] + text[end_of_group(text, m.end() - 1) :]
    return text


def is_law(text, at):
    return re.match(r"[^{;]*\{\s*\}", text[at:]) is not None


def uses_of(text, name, imported):
    """Whether code names a function or a constant: by a call, a path or as a value; where it must be imported, by the import."""
    if re.search(rf"(\.|::){name}\b(?!\s*:[^:])(?=\s*\(|\s*::|(?<=::{name}))", text):
        return True
    groups = re.findall(r"\buse [^;]*;", text)
    if any(re.search(rf"\b{name}\b", group) for group in groups):
        return True
    plain = re.sub(r"\buse [^;]*;", "", text)
    return not imported and re.search(rf"(?<![\w.])(?<!fn )(?<!const )(?<!static ){name}\b(?!\s*:[^:])", plain) is not None


def main():
    below = {}
    for line in Path("crates.txt").read_text().splitlines():
        if ":" in line and not line.startswith("#"):
            name, deps = line.split(":")
            below[name.split()[0]] = deps.split()
    for _ in below:
        below = {name: sorted({*deps, *(d for dep in deps for d in below.get(dep, []))}) for name, deps in below.items()}
        if all(d in below[n] for n in below for dep in below[n] for d in below.get(dep, [])):
            break
    code, words, items = {}, {}, []
    for crate in below:
        paths = [p for p in sorted(Path("crates", crate).rglob("*")) if "out" not in p.parts]
        sources = {p: p.read_text() for p in paths if p.suffix in (".rt", ".antt")}
        words[crate] = re.sub(r"(//|--)[^\n]*", "", "\n".join(sources.values()))
        plain = {p: code_of(text) for p, text in sources.items() if p.suffix == ".rt"}
        code[crate] = "\n".join(plain.values())
        for path, text in plain.items():
            for m in ITEM.finditer(text):
                if not (m[2] == "fn" and is_law(text, m.end())):
                    items.append((crate, path, m[1] != "", m[2], m[3]))
    found = []
    for crate, path, inner, kind, name in items:
        above = [c for c in below if crate in below[c]]
        if kind in TYPES:
            definition = rf"\b{kind} {name}\b|\bimpl\b[^{{]*\b{name}\b"
            used = any(re.search(rf"\b{name}\b", re.sub(definition, "", words[c])) for c in [crate, *above])
        else:
            used = uses_of(code[crate], name, False) or any(uses_of(code[c], name, not inner) for c in above)
        if not used and name not in ALLOWED:
            found.append(f"{path}: {kind} {name} is used nowhere")
    print(*found, f"unused: {len(found)} of {len(items)} public items", sep="\n")
    return 1 if found or len(items) < 500 else 0


sys.exit(main())
