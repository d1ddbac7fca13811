#!/usr/bin/env python3
"""schedules.py LAB [FIRST] [COUNT]: what `am2_lab schedule SEED..SEED2` tells, made again from the reports that `am2_lab schedule SEED` prints of each seed alone; with
`--faults` from those of the scenarios with the plans that the second reading's own generator draws.

The scenarios are the examples with turns, one without, and COUNT random ones with turns from FIRST on (20 from 1), each with a range of seeds of its own. A range that is
empty, too long or no range is refused. Of two threads that send each other requests forty seeds make at least thirty distinct journals.
"""
import pathlib
import random
import subprocess
import sys

from made import with_drawn_plan
from randoms import threaded_script

TOP = pathlib.Path(__file__).resolve().parent.parent
REFUSED = ["5..5", "6..5", "0..100001", "..5", "5..", "5...7", "5..=7", "a..b", "0..18446744073709551616", "-1..3"]

# Two threads on two nodes send each other requests, and each hears its answers.
PAIR = "am2 1\nnetwork packet\nnodes 2\nturns 400\nendpoint 0 0 10\nendpoint 1 1 11\nthread 0 0\nthread 1 1\n" + "".join(
    f"t{e} handler {e} 3 echo 4\nt{e} handler {e} 4 note\nt{e} map {e} 0 {1 - e} {11 - e} 4\n"
    + "".join(f"t{e} request {e} 0 3 {word} 0 0 0\n" + f"t{e} poll {e}\n" * polls for word, polls in ((1, 0), (2, 1), (3, 1), (4, 3)))
    for e in (0, 1)
)


def told(lab, seeds, text, *faults):
    """The status and the output."""
    done = subprocess.run([lab, "schedule", seeds, *faults], input=text.encode(), capture_output=True, check=False)
    return done.returncode, done.stdout.decode()


def drawn(lab, text, percent):
    """The scenario by seed: as it is, or with the plan that the seed draws."""
    done = subprocess.run([lab, "scenario", "run"], input=text.encode(), capture_output=True, check=False)
    if percent is None or done.returncode:
        return lambda seed: text
    return lambda seed: with_drawn_plan(done.stdout.decode(), seed, percent)


class Report:
    """What a report says, whose first line may tell a full log."""

    def __init__(self, seed, printed):
        lines = printed.splitlines()
        self.seed, self.full = seed, lines.pop(0) if lines[0].startswith("log full ") else None
        self.entries = lines[1]
        self.journal = lines[2 : 2 + int(lines[1].split()[1])]
        self.fates = [line for line in lines if line.startswith("fate ")]
        self.totals = lines[-1]

    def line(self, first):
        """Its line beside the first report."""
        here = {fate.split()[1] for fate in self.fates}
        other = [fate for fate in self.fates if fate not in first.fates]
        missed = [" ".join(fate.split()[:3] + ["not-accepted"]) for fate in first.fates if fate.split()[1] not in here]
        return " ".join(["seed", str(self.seed), self.entries, self.totals, *other, *missed, *([self.full] if self.full else [])])


def due(lab, seeds, text, percent):
    """What should be told of these seeds."""
    scenario = drawn(lab, text, percent)
    alone = [(seed, *told(lab, str(seed), scenario(seed))) for seed in seeds]
    if alone[0][1] == 3:
        return 3, alone[0][2]
    reports = [Report(seed, printed) for seed, _, printed in alone]
    lines = [report.line(reports[0]) for report in reports]
    lines.append(f"distinct journals {len({tuple(report.journal) for report in reports})}")
    return max(status for _, status, _ in alone), "".join(line + "\n" for line in lines)


def main(lab, first=1, count=20):
    wrong, asked, lines = [], 0, 0
    examples = [(name, (TOP / "examples" / name).read_text()) for name in ("turns-clients.am2", "run-withheld.am2", "first.am2")]
    scripts = examples + [(f"scenario {seed}", threaded_script(seed)) for seed in range(first, first + count)]
    for name, text in scripts:
        choice = random.Random(name)
        begin = choice.choice([0, 1, 77, 2**64 - 12])
        seeds = range(begin, begin + choice.randint(1, 11))
        for percent in (None, choice.choice([0, 100, choice.randint(1, 99)])):
            faults = [] if percent is None else ["--faults", str(percent)]
            asked, lines = asked + 1, lines + len(seeds)
            if told(lab, f"{seeds.start}..{seeds.stop}", text, *faults) != due(lab, seeds, text, percent):
                wrong.append(f"{name}, seeds {seeds.start}..{seeds.stop} {' '.join(faults)}")
    for word in REFUSED:
        asked += 1
        if told(lab, word, examples[0][1]) != (2, ""):
            wrong.append(f"{word} was taken")
    for faults in (["--faults"], ["--faults", "101"], ["--faults", "07"], ["--fault", "7"], ["7"]):
        asked += 1
        if told(lab, "0..5", examples[0][1], *faults) != (2, ""):
            wrong.append(f"{' '.join(faults)} was taken")
    status, printed = told(lab, "0..40", PAIR)
    asked, lines = asked + 1, lines + 40
    if status != 0 or int(printed.split()[-1]) < 30:
        wrong.append("two threads, forty seeds: fewer than thirty journals")
    print(f"{asked} ranges of seeds asked for, {lines} runs told; {len(wrong)} wrong")
    for it in wrong:
        print(it)
    return 1 if wrong else 0


if __name__ == "__main__":
    sys.exit(main(sys.argv[1], *(int(it) for it in sys.argv[2:4])))
