#!/usr/bin/env python3
"""checked.py PROGRAM SCENARIO: the program judges reports by its command `check`.

The stored reports of the examples, and those that runs of a scenario give with 0 to 1,000 turns, are right. A report with one byte changed, at each place in
turn, is not.
"""
import glob
import subprocess
import sys

from turns import with_turns

FIRST = "examples/first"


def answer(program, *words, given):
    """The status of the program, and what it prints."""
    found = subprocess.run([program, *words], input=given, capture_output=True, check=False, timeout=60)
    return found.returncode, found.stdout


def examples():
    """Each example with the form of its scenario: the name, the scenario, its report."""
    for path in sorted(glob.glob("examples/*.am2")):
        name = path[: -len(".am2")]
        if name.startswith(("examples/segments", "examples/session", "examples/check-")):
            continue
        with open(path, "rb") as scenario, open(f"{name}.out", "rb") as report:
            form = "run" if name.startswith(("examples/run-", "examples/turns-")) else "step"
            yield name, form, scenario.read(), report.read()


def runs(program, path):
    """The runs of a scenario with so many turns: the name, the scenario, the report of one run."""
    with open(path, encoding="ascii") as scenario:
        text = scenario.read()
    for turns in (0, 1, 2, 4, 8, 32, 1000):
        given = with_turns(text, turns).encode()
        _, report = answer(program, "run", given=given)
        yield f"{turns} turns", "run", given, report


def main(program, path):
    bad = right = 0
    for name, form, scenario, report in [*examples(), *runs(program, path)]:
        right += 1
        found = answer(program, "check", form, given=scenario + report)
        if found != (0, b"check ok\n"):
            bad += 1
            print(f"{name}: {found}")
    with open(f"{FIRST}.am2", "rb") as scenario, open(f"{FIRST}.out", "rb") as whole:
        text, report = scenario.read(), whole.read()
    for place, byte in enumerate(report):
        changed = report[:place] + bytes([byte ^ 1]) + report[place + 1 :]
        status, printed = answer(program, "check", "step", given=text + changed)
        if status not in (3, 10) or printed == b"check ok\n":
            bad += 1
            print(f"{FIRST}.out with another byte at {place}: status {status}, {printed}")
    print(f"checked: {right} right reports, {len(report)} with a byte changed, {bad} bad")
    return 1 if bad else 0


if __name__ == "__main__":
    sys.exit(main(*sys.argv[1:3]))
