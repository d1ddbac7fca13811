#!/usr/bin/env python3
"""lab_randoms.py PROGRAM FIRST COUNT: what `am2_lab` tells of random reports. The second reading makes the report of the random step script and of the random run of each
seed FIRST, FIRST + 1 .. Of each that came to its end the program must tell `why` of every message as check/lab.py has it, `explain` must say that it is right, and its picture
must be as check/chart.py reads it. Of the same report with a line or two spoiled, `explain` must begin with the second reading's answer of `check`, under the same status, and `why` must answer just that.
"""
import random
import sys

from chart import drawn, faults_in, lines_of
from lab import told, why_of
from randoms import run_script, spoiled, step_script
from reading import answer

SCRIPTS = {"step": step_script, "run": run_script}


def read(text, report):
    """The plan, the journal's lines and the fates that a scenario and its report tell."""
    lines = report.splitlines()
    count = int(lines[1].split()[1])
    plan = {(int(it[1]), int(it[2]), int(it[3])): it[4:] for it in map(str.split, text.splitlines()) if it[:1] == ["plan"]}
    fates = {it[1]: it[3:] for it in map(str.split, lines[2 + count:]) if it[:1] == ["fate"]}
    return plan, lines[2:2 + count], fates


def right_report(program, form, text, report):
    """What is wrong in what is told of a right report, and how much was asked."""
    plan, journal, fates = read(text, report)
    faults = [f"why {form} {serial}" for serial in [*fates, "255.9"]
              if told(program, "why", form, text + report, serial) != why_of(text, plan, journal, fates, serial)]
    if told(program, "explain", form, text + report) != (0, "check ok\n"):
        faults.append(f"explain {form}")
    faults += chart_faults(program, form, text, report)
    return faults, len(fates) + 3


def chart_faults(program, form, text, report):
    """What is wrong in the picture of a right report, whose rows are read where they are high."""
    picture = drawn(program, form, text + report)
    return [f"chart {form}: {fault}" for fault in faults_in(picture, text, report)] if len(lines_of(report)[0]) <= 400 else []


def spoiled_report(program, form, text, report):
    """What is wrong in what is told of a report that was spoiled, which may be right all the same."""
    status, verdict = answer(["check", form], text + report)
    found, explained = told(program, "explain", form, text + report)
    faults = [] if found == status and explained.startswith(verdict) else [f"explain {form} of a spoiled report: {found} {explained!r}, and check: {status} {verdict!r}"]
    if status != 0 and told(program, "why", form, text + report, "0.1") != (status, verdict):
        faults.append(f"why {form} of a spoiled report")
    return faults, 2


def main(program, first, count):
    reports = asked = bad = 0
    for seed in range(first, first + count):
        for form, script in SCRIPTS.items():
            text = script(seed)
            status, report = answer([form], text)
            if status != 0:
                continue
            reports += 1
            draw = random.Random(f"lab {form} {seed}")
            for faults, number in (right_report(program, form, text, report), spoiled_report(program, form, text, spoiled(draw, report))):
                asked += number
                bad += len(faults)
                for fault in faults:
                    print(f"seed {seed}: {fault}")
    print(f"lab: {reports} random reports, {asked} answers, {bad} wrong")
    return 1 if bad or reports < count else 0


if __name__ == "__main__":
    sys.exit(main(sys.argv[1], int(sys.argv[2]), int(sys.argv[3])))
