#!/usr/bin/env python3
"""turns.py PROGRAM SCENARIO: the run of a scenario with 0 to 32 turns and with 1,000. Each report is judged, and made again entry by entry by the second
reading of the rules: it obeys the laws, and no message is pending.
"""
import subprocess
import sys

from reports import judged


def with_turns(text, turns):
    """The scenario with this line before its first endpoint."""
    settings, ends = text.split("\nendpoint ", 1)
    return f"{settings}\nturns {turns}\nendpoint {ends}"


def main(program, path):
    with open(path, encoding="ascii") as scenario:
        text = scenario.read()
    bad = 0
    for turns in [*range(33), 1000]:
        given = with_turns(text, turns)
        found = subprocess.run([program, "run"], input=given.encode(), capture_output=True, check=False, timeout=60)
        wrong, _ = judged(found.returncode, given, found.stdout.decode())
        if wrong or found.returncode:
            bad += 1
            print(f"{turns} turns, status {found.returncode}: " + "; ".join(wrong))
    print(f"turns: 34 runs of {path}, {bad} bad")
    return 1 if bad else 0


if __name__ == "__main__":
    sys.exit(main(*sys.argv[1:3]))
