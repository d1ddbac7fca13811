#!/usr/bin/env python3
"""page_texts.py [--write]: whether the texts of the page of a report that stand in the program are those of crates/am_lab_page/page, and
docs/turns-clients.html is the page that they make round the second reading of that example's report and its changes, and round its picture.

With --write it puts them there.

The frame has the style and the script in it, and is cut where the journal, the picture and the changes come.
"""
import json
import pathlib
import sys

from json_lines import objects
from state import changes

TOP = pathlib.Path(__file__).resolve().parent.parent
CRATE, EXAMPLE = TOP / "crates" / "am_lab_page", "turns-clients"
MOST = 2000
ESCAPES = str.maketrans({"&": "&amp;", "<": "&lt;", ">": "&gt;", '"': "&quot;", "'": "&apos;", "\n": "&#10;"})
HEAD = "//! {about} Made of `page/` by `check/page_texts.py --write`.\n"


def constant(name, about, text):
    """A constant with a text as it stands."""
    hashes = "#"
    while f'"{hashes}' in text:
        hashes += "#"
    return f'\n/// {about}\npub const {name}: &str = r{hashes}"{text}"{hashes};\n'


def parts():
    """What stands in front of the journal, between it and the picture, between that and the changes, and behind them."""
    frame, style, script = ((CRATE / "page" / name).read_text() for name in ("frame.html", "style.css", "script.js"))
    front, rest = frame.replace("{{style}}", style).split("{{journal}}")
    middle, rest = rest.split("{{picture}}")
    side, back = rest.split("{{changes}}")
    return front, middle, side, back.replace("{{script}}", script)


def changes_element(scenario, report):
    """The element with what each entry changes, where there are few."""
    told = changes(scenario, report)
    text = "".join(f"line {line}\n{lines}" for line, lines in told.items())
    return f'<template id="changes">{text.translate(ESCAPES)}</template>\n' if len(told) <= MOST else ""


def texts():
    """The files, with what they are to hold."""
    front, middle, side, back = parts()
    scenario, report, picture = ((TOP / "examples" / f"{EXAMPLE}.{end}").read_text() for end in ("am2", "out", "svg"))
    journal = "".join(json.dumps(it, separators=(",", ":")) + "\n" for it in objects(report))
    src = CRATE / "src" / "page"
    return {
        src / "front.rt": HEAD.format(about="The page in front of the journal.") + constant("FRONT", "The beginning, with the style.", front),
        src / "middle.rt": HEAD.format(about="The page between the journal and the picture.") + constant("MIDDLE", "What one filters and moves with.", middle),
        src / "side.rt": HEAD.format(about="The page between the picture and the changes.") + constant("SIDE", "The side.", side),
        src / "back.rt": HEAD.format(about="The page behind the changes.") + constant("BACK", "The script.", back),
        TOP / "docs" / f"{EXAMPLE}.html": front + journal + middle + picture + side + changes_element(scenario, report) + back,
    }


def main(write):
    bad = 0
    for file, text in texts().items():
        if write:
            file.write_text(text)
        elif not file.exists() or file.read_text() != text:
            bad += 1
            print(f"{file.name} isn't made of crates/am_lab_page/page: run check/page_texts.py --write")
    return 1 if bad else 0


if __name__ == "__main__":
    sys.exit(main("--write" in sys.argv))
