#!/usr/bin/env python3
"""soak.py PROGRAM [FIRST] [COUNT] [JOBS]: random scenarios FIRST, FIRST + 1 .. (1,000 from 1) with turns, each run by the program, JOBS at a time, and
each report judged. soak.py schedule PROGRAM LAB [FIRST] [COUNT] [JOBS]: so of the runs that `am2_lab schedule` makes of these scenarios (10,000), each by its
own number as the seed and twice, to the same bytes.

The scenarios have 1 to 16 nodes, up to 256 endpoints and 64 threads, 1 to 10,000 turns, packets that are lost, repeated and late, swap faults, and now and then a small log.
A report is judged by check/judge.py, and made again entry by entry by the second reading in check/replay.py; and the program's own checker, `check run`, must say yes to
each that came to its end. Prints each bad one, and then what all came to. A bad
scenario is kept beside its report in the folder that the line names; `soak.py PROGRAM SEED 1` runs it again, though maybe another way, and
`soak.py schedule PROGRAM LAB SEED 1` in the same way.
"""
import os
import subprocess
import sys
import tempfile
from collections import Counter
from concurrent.futures import ProcessPoolExecutor

sys.path.insert(0, os.path.join(os.path.dirname(os.path.abspath(__file__)), "..", "check"))

from randoms import threaded_script
from reports import judged

SECONDS = 120


def checked(program, text, printed):
    """What the program's own checker says against a report of a run that came to its end."""
    given = text if text.endswith("\n") else text + "\n"
    found = subprocess.run([program, "check", "run"], input=given.encode() + printed, capture_output=True, check=False, timeout=SECONDS)
    told = found.stdout.decode().strip()
    return [] if (found.returncode, told) == (0, "check ok") else [f"check run: status {found.returncode}, {told}"]


def made(command, text):
    return subprocess.run(command, input=text.encode(), capture_output=True, check=False, timeout=SECONDS)


def tried(program, lab, seed):
    """A run of the scenario: by the program, or where there is a lab, by the seed."""
    text = threaded_script(seed)
    command = [lab, "schedule", str(seed)] if lab else [program, "run"]
    try:
        found = made(command, text)
        again = made(command, text) if lab else found
    except subprocess.TimeoutExpired:
        return seed, "slow", [f"no answer in {SECONDS} seconds"], (0, 0)
    wrong, entries = judged(found.returncode, text, found.stdout.decode())
    if found.returncode == 0:
        wrong += checked(program, text, found.stdout)
    if (again.returncode, again.stdout) != (found.returncode, found.stdout):
        wrong.append("it was not the same again")
    if found.stderr:
        wrong.append(f"it wrote an error: {found.stderr[:200]!r}")
    if wrong:
        keep(seed, text, found.stdout)
    return seed, found.returncode, wrong, entries


def keep(seed, text, printed):
    folder = os.path.join(tempfile.gettempdir(), "am2-soak")
    os.makedirs(folder, exist_ok=True)
    for name, content in ((f"{seed}.am2", text.encode()), (f"{seed}.out", printed)):
        with open(os.path.join(folder, name), "wb") as out:
            out.write(content)
    print(f"scenario {seed} and its report are kept in {folder}")


def main(program, lab, first=1, count=1000, jobs=None):
    statuses, bad, all_entries, drained = Counter(), 0, 0, 0
    with ProcessPoolExecutor(jobs) as pool:
        for seed, status, wrong, (entries, by_drain) in pool.map(tried, [program] * count, [lab] * count, range(first, first + count)):
            statuses[status] += 1
            all_entries += entries
            drained += by_drain
            if wrong:
                bad += 1
                print(f"scenario {seed}, status {status}: " + "; ".join(wrong), flush=True)
    told = ", ".join(f"{times} with status {status}" for status, times in sorted(statuses.items(), key=str))
    print(f"{count} runs: {told}; {all_entries} entries, {drained} of them by the drain; {bad} bad")
    return 1 if bad else 0


if __name__ == "__main__":
    if sys.argv[1] == "schedule":
        sys.exit(main(sys.argv[2], sys.argv[3], *([int(it) for it in sys.argv[4:7]] or [1, 10_000])))
    sys.exit(main(sys.argv[1], None, *(int(it) for it in sys.argv[2:5])))
