#!/usr/bin/env python3
"""What the crates offer to whoever calls them: surface.py

check/surface.txt has a crate to a line, and below it its types, traits and functions, each with its calls behind it. This reads the public items of each
crate's root, follows what it passes on to where it is declared, through as many crates as it takes, and fails where an item or a call of the list isn't
there."""
import re
import sys
from functools import cache
from pathlib import Path

LIST = Path("check/surface.txt")
ITEM = re.compile(r"^pub (?:unsafe )?(?:const )?(?P<kind>struct|enum|trait|type|const|fn) (?P<name>\w+)(?P<rest>[^\n]*)", re.M)
USE = re.compile(r"^(?P<pub>pub )?use ([^;]+);", re.M)
IMPL = re.compile(r"^impl\b(?P<head>[^{]*)\{(?P<body>.*?)^\}", re.M | re.S)
TRAIT = re.compile(r"^pub trait (?P<name>\w+)\b[^{]*\{(?P<body>.*?)^\}", re.M | re.S)
CALL = re.compile(r"^ +(?P<pub>pub )?(?:unsafe )?(?:const )?fn (?P<name>\w+)", re.M)


@cache
def text_of(path):
    return path.read_text(encoding="utf-8") if path.exists() else ""


def file_of(crate, module):
    """The file of a module, which is named by the way to it from the crate's root."""
    return Path(f"crates/{crate}/src", *module).with_suffix(".rt") if module else Path(f"crates/{crate}/src/lib.rt")


def leaves(tree, front=()):
    """Each name that a use brings in: the way to it, and what it is called here."""
    tree = tree.strip()
    way, brace, inner = tree.partition("{")
    if not brace:
        path, _, here = tree.partition(" as ")
        path = (*front, *path.strip().split("::"))
        yield path, here.strip() or path[-1]
        return
    depth, part = 0, ""
    for letter in inner.rstrip().removesuffix("}") + ",":
        depth += {"{": 1, "}": -1}.get(letter, 0)
        if letter == "," and depth == 0:
            if part.strip():
                yield from leaves(part, (*front, *filter(None, way.strip().split("::"))))
            part = ""
        else:
            part += letter


@cache
def names_of(crate, module):
    """What a module declares, and what it brings in: each name with where it is from, and whether it is passed on."""
    text, found = text_of(file_of(crate, module)), {}
    for use in USE.finditer(text):
        for path, here in leaves(use[2]):
            found[here] = ("use", path, bool(use["pub"]))
    for item in ITEM.finditer(text):
        found[item["name"]] = (item["kind"], item["rest"], True)
    return found


def home_of(crate, module, name, seen=()):
    """Where an item is declared: its crate, its kind and its name. None: nowhere among these crates."""
    if (crate, module, name) in seen or name not in names_of(crate, module):
        return None
    kind, rest, _ = names_of(crate, module)[name]
    again = (*seen, (crate, module, name))
    if kind == "type":
        other = re.search(r"= *((?:\w+::)*\w+)", rest)
        return other and home_at(crate, module, tuple(other[1].split("::")), again) or (crate, kind, name)
    return home_at(crate, module, rest, again) if kind == "use" else (crate, kind, name)


def home_at(crate, module, path, seen):
    first, *rest = path
    if not rest:
        return home_of(crate, module, first, seen)
    if first == "crate":
        return home_of(crate, tuple(rest[:-1]), rest[-1], seen)
    if first in ("self", "super"):
        return home_of(crate, (module if first == "self" else module[:-1]) + tuple(rest[:-1]), rest[-1], seen)
    if file_of(crate, (*module, first)).exists():
        return home_of(crate, (*module, first, *rest[:-1]), rest[-1], seen)
    if file_of(first, ()).exists():
        return home_of(first, tuple(rest[:-1]), rest[-1], seen)
    return None


def named(head):
    """The type of an implementation of its own calls; of one of a trait, nothing."""
    if re.search(r"\bfor\b", head):
        return None
    depth = 0
    for at, letter in enumerate(head):
        depth += {"<": 1, ">": -1}.get(letter, 0)
        if depth == 0 and (letter.isalpha() or letter == "_"):
            return re.match(r"\w+", head[at:])[0]
    return None


@cache
def calls_of(crate):
    """The public calls of each type and trait that a crate declares."""
    found = {}
    for path in sorted(Path(f"crates/{crate}/src").rglob("*.rt")):
        for block in IMPL.finditer(text_of(path)):
            found.setdefault(named(block["head"]), set()).update(it["name"] for it in CALL.finditer(block["body"]) if it["pub"])
        for block in TRAIT.finditer(text_of(path)):
            found.setdefault(block["name"], set()).update(it["name"] for it in CALL.finditer(block["body"]))
    return found


def main():
    crate, lacking, items, calls = None, [], 0, 0
    for line in LIST.read_text(encoding="utf-8").splitlines():
        words = line.split()
        if not words or line.startswith("#"):
            continue
        if not line.startswith(" "):
            crate = words[0]
            continue
        name, *wanted = words
        _, _, passed_on = names_of(crate, ()).get(name, (None, None, False))
        home = home_of(crate, (), name) if passed_on else None
        items, calls = items + 1, calls + len(wanted)
        if not home:
            lacking.append(f"{crate} doesn't offer {name}")
            continue
        there = calls_of(home[0]).get(home[2], set())
        lacking += [f"{crate}'s {name} has no public call {it}" for it in wanted if it not in there]
    print("\n".join([*lacking, f"surface: {items} items and {calls} calls, {len(lacking)} lacking"]))
    return 1 if lacking else 0


if __name__ == "__main__":
    sys.exit(main())
