#!/usr/bin/env python3
"""A second reading of the rules: `reading.py step`, `run`, `make N`, `segments`, `session`, `check step` and `check run` print what am2 should print of standard input, or of the files behind
these words, as bin/am2 takes them.

It is written from docs/MANUAL.md and not from the code, and shares nothing with it. It answers with the same statuses: 0, 2, 3, 6 and 10.
"""
import sys

import segments
import session
import verdict
from drain import Run
from faults import first_fault, refused
from machine import Cluster, LogFull, NotEnabled
from made import make
from scenario import read


def step(scenario):
    cluster = Cluster(scenario)
    for line, words in scenario.steps:
        try:
            cluster.apply(words)
        except NotEnabled as why:
            return 3, [f"refused line {line} not-enabled {why}"]
        except LogFull as part:
            return 6, [f"log full {part}"]
    return 0, cluster.report()


def run(scenario):
    made = Run(scenario)
    try:
        made.finish()
    except LogFull as part:
        return 6, [f"log full {part}", *made.cluster.report()]
    return 0, made.cluster.report()


def made_run(number):
    scenario = make(int(number))
    status, lines = run(scenario)
    if status:
        return status, lines[:1]
    return 0, [f"am2 make {number}", f"calls {len(scenario.script)}", lines[1], lines[-1]]


def answer(words, text):
    """The status and the text for these words and this input."""
    if words[0] == "make":
        status, lines = made_run(words[1])
    elif words[0] == "check":
        status, lines = verdict.check(words[1], text)
    elif words[0] in ("segments", "session"):
        status, lines = {"segments": segments.run, "session": session.play}[words[0]](text)
    else:
        fault = first_fault(words[0], text)
        status, lines = refused(fault) if fault else {"step": step, "run": run}[words[0]](read(text))
    return status, "".join(line + "\n" for line in lines)


COMMANDS = ("step", "run", "segments", "session", "check step", "check run")


def text_of(files, source):
    """What is read: the files, each but the last with its newline at the end, or else standard input."""
    if not files:
        return source.read()
    parts = []
    for path in files:
        with open(path, "rb") as file:
            parts.append(file.read())
    return b"".join(it if it.endswith(b"\n") or not it else it + b"\n" for it in parts[:-1]) + parts[-1]


def main(words, source):
    """Prints the answer, and gives the status."""
    is_make = len(words) == 2 and words[0] == "make" and words[1].isdigit()
    count = 2 if words[:1] in (["check"], ["make"]) else 1
    files, words = words[count:], words[:count]
    if not is_make and (" ".join(words) not in COMMANDS or len(files) > count):
        print(f"usage: reading.py {' | '.join(COMMANDS)} < TEXT, reading.py make N", file=sys.stderr)
        return 2
    status, printed = answer(words, "" if is_make else text_of(files, source).decode("latin-1"))
    sys.stdout.write(printed)
    return status


if __name__ == "__main__":
    sys.exit(main(sys.argv[1:], sys.stdin.buffer))
