#!/usr/bin/env python3
"""judge.py SCENARIO REPORT: what can be read off the report of a run, whichever of the possible journals it printed.

Each thread's calls are its script in order; each serial is accepted once, runs at most once and not where it came back; each accepted message has one fate,
which is what its lines say; none is pending; the counts and totals are right.
"""
import re
import sys
from collections import Counter

from scenario import read

SERIAL = r"(\d+\.\d+)"


def faults(scenario, report):
    lines = report.split("\n")
    if lines[:1] != ["am2 report 1"] or not report.endswith("\n"):
        return ["no report"]
    count = int(lines[1].split()[1])
    journal, rest = lines[2 : 2 + count], lines[2 + count : -1]
    return scripts(scenario, journal) + fates(journal, rest)


def scripts(scenario, journal):
    found = []
    for thread in scenario.threads:
        made = [line.split() for line in journal if line.startswith(f"t{thread} ") and line.split()[1] != "want"]
        calls = [call for it, call in scenario.script if it == thread]
        if [line[1:3] for line in made] != [[call[0], str(int(call[1]))] for call in calls]:
            found.append(f"thread {thread} made other calls than its script")
    return found


def serials(journal, form):
    return Counter(it[1] for it in (re.search(form, line) for line in journal) if it)


def fates(journal, rest):
    accepted = serials(journal, rf"-> ok {SERIAL}$") + serials(journal, rf"sends {SERIAL}$")
    ran, back = serials(journal, rf"-> ran {SERIAL} "), serials(journal, rf"-> returned {SERIAL} ")
    unknown = serials(journal, rf"-> unknown {SERIAL}$")
    told = {line.split()[1]: " ".join(line.split()[3:]) for line in rest if line.startswith("fate ")}
    found = [f"{it} is accepted, runs or comes back twice" for count in (accepted, ran, back, unknown) for it, times in count.items() if times > 1]
    found += [f"{it} came back and ran" for it in back if it in ran]
    found += [f"{it} is pending" for it, fate in told.items() if fate == "pending"]
    if set(told) != set(accepted):
        found.append("fates are told of other messages than were accepted")
    for serial, fate in told.items():
        wanted = "returned" if serial in back else ("unknown-but-ran" if serial in ran else "unknown") if serial in unknown else "ran" if serial in ran else "pending"
        if fate.split()[0] != wanted:
            found.append(f"{serial} is told as {fate}, and its lines say {wanted}")
    totals = Counter(fate.split()[0] for fate in told.values())
    names = ("ran", "returned", "unknown", "unknown-but-ran", "pending")
    if rest[-1:] != ["totals " + " ".join(f"{name} {totals[name]}" for name in names)]:
        found.append("the totals are others than the fates")
    return found


if __name__ == "__main__":
    with open(sys.argv[1], encoding="ascii") as scenario, open(sys.argv[2], encoding="ascii") as report:
        told = faults(read(scenario.read()), report.read())
    print("\n".join(told) or "nothing found")
    sys.exit(1 if told else 0)
