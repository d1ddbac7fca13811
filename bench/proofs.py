#!/usr/bin/env python3
"""Which functions of a crate cost what: proofs.py CRATE [HOW-MANY]

Run it at the top, after `rt check` proved the crate from nothing (without its folder out/) with nothing beside it. What a check wrote last tells what it did
since the file before: so the times of the files in out/incremental say what each function's code, goals, search and answers took, and each file of lemmas.
`rt check --progress` doesn't: its lines come when a function's last part is done, and name the wrong one where two are at work."""
import re
import sys
from pathlib import Path

PARTS = "Lts|Tie|Proof|Kinds|TheLinks|Goals|Answers|Given|Invariants|Symbol|Key|Spec|Contract|Moved|Links"
OF_FUNCTION = re.compile(rf"(?:proofs|specs\.contracts)\.(.*?)\.((?:{PARTS})\b.*)$")


def took(crate):
    """The seconds before each file was written, by function or file of lemmas, and in each by part."""
    files = sorted((path.stat().st_mtime, path.stem) for path in Path(f"crates/{crate}/out/incremental").glob("antt-*/*.oantt"))
    sums = {}
    for (before, _), (at, name) in zip(files, files[1:]):
        name = name.removeprefix(f"Rattle-{crate}-")
        found = OF_FUNCTION.match(name)
        function, part = found.groups() if found else (name, "")
        parts = sums.setdefault(function, {})
        parts[part.split(".")[0]] = parts.get(part.split(".")[0], 0) + at - before
    return sums


def main(crate, most="30"):
    sums = took(crate)
    for function in sorted(sums, key=lambda it: -sum(sums[it].values()))[: int(most)]:
        parts = sorted(sums[function].items(), key=lambda it: -it[1])
        print(f"{sum(sums[function].values()):7.1f} {function} ", " ".join(f"{part} {seconds:.1f}" for part, seconds in parts[:4] if part and seconds >= 0.1))
    print(f"{sum(sum(parts.values()) for parts in sums.values()):7.1f} in all")


if __name__ == "__main__":
    main(*sys.argv[1:3])
