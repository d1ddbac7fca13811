#!/usr/bin/env python3
"""finds.py LAB [FIRST] [COUNT]: what `am2_lab find` answers, made again from the reports that `am2_lab schedule SEED` prints one after the other; and what `am2_lab faults`
prints, made again from what `am2_lab scenario run` prints and from the second reading's own generator. With `--faults` the reports are those of the scenarios that this
generator draws, each by its seed.

The scenarios are two examples, one that is refused, and COUNT random ones with turns from FIRST on (20 from 1). The words are beginnings of lines that some report of the range
has, some with a star, some with their last word cut, so that they begin no line as whole words.
"""
import pathlib
import random
import subprocess
import sys

from made import with_drawn_plan
from randoms import threaded_script

TOP = pathlib.Path(__file__).resolve().parent.parent
NO_WORDS = [["find", "0..3"], ["find", "3", "fate"], ["find", "3..3", "fate"], ["faults", "1"], ["faults", "1", "101"], ["faults", "-1", "5"]]
NO_WORDS += [["find", "0..3", "--faults", "20"], ["find", "0..3", "--faults", "101", "fate"], ["find", "--faults", "20", "0..3", "fate"], ["find", "0..3", "fate", "--faults", "20"]]


class Lab:
    """The program, and what was found wrong."""

    def __init__(self, lab):
        self.lab, self.asked, self.wrong = lab, 0, []

    def told(self, words, text):
        """The status and the output."""
        done = subprocess.run([self.lab, *map(str, words)], input=text.encode(), capture_output=True, check=False)
        return done.returncode, done.stdout.decode()

    def check(self, what, right):
        self.asked += 1
        if not right:
            self.wrong.append(what)


def is_like(given, word):
    return word.startswith(given[:-1]) if given.endswith("*") else word == given


def begins(given, line):
    words = line.split()
    return len(given) <= len(words) and all(is_like(*pair) for pair in zip(given, words))


def has_line(given, report):
    return any(begins(given, line) for line in report.splitlines())


def due(reports, given, wanted, seeds):
    """What `find` should answer, where these are the answers of `schedule` to the seeds, each with what stands in front of it."""
    if reports[0][0] == 3:
        return reports[0][:2]
    for seed, (status, report, before) in zip(seeds, reports):
        if has_line(given, report) == wanted:
            return status, f"seed {seed}\n{before}{report}"
    return 12, f"no such seed in {seeds.start}..{seeds.stop}\n"


def reports_of(lab, text, seeds, percent):
    """The answers of `schedule` to the seeds: to the scenario as it is, or to the one with the plan that the seed draws, which then stands in front."""
    status, printed = lab.told(["scenario", "run"], text)
    if percent is None or status:
        return [(*lab.told(["schedule", seed], text), "") for seed in seeds]
    drawn = [with_drawn_plan(printed, seed, percent) for seed in seeds]
    return [(*lab.told(["schedule", seed], front), front) for seed, front in zip(seeds, drawn)]


def some_words(choice, reports):
    """The beginning of a line of a report, as it is, with a star, or cut."""
    words = choice.choice(choice.choice(reports)[1].splitlines()).split()
    given = words[: choice.randint(1, len(words))]
    change = choice.random()
    if change < 0.3:
        given[-1] = given[-1][: choice.randint(0, len(given[-1]))] + "*"
    elif change < 0.5 and len(given[-1]) > 1:
        given[-1] = given[-1][:-1]
    return given


def try_finding(lab, name, text, choice, percent):
    begin = choice.choice([0, 1, 77, 2**64 - 12])
    seeds = range(begin, begin + choice.randint(1, 11))
    reports = reports_of(lab, text, seeds, percent)
    faults = [] if percent is None else ["--faults", percent]
    for _ in range(12):
        given, wanted = some_words(choice, reports), choice.random() < 0.7
        words = ["find", *([] if wanted else ["--not"]), f"{seeds.start}..{seeds.stop}", *faults, *given]
        lab.check(f"{name}: {' '.join(map(str, words))}", lab.told(words, text) == due(reports, given, wanted, seeds))
    if faults:
        lab.check(f"{name}: schedule {seeds.start} --faults {percent}", lab.told(["schedule", seeds.start, *faults], text) == reports[0][:2])


def try_faults(lab, name, text, choice):
    status, printed = lab.told(["scenario", "run"], text)
    for percent in (0, choice.randint(1, 99), 100):
        seed = choice.choice([0, 1, 2**64 - 1, choice.randrange(2**64)])
        answer = (status, printed)
        if status == 0:
            answer = 0, with_drawn_plan(printed, seed, percent)
        lab.check(f"{name}: faults {seed} {percent}", lab.told(["faults", seed, percent], text) == answer)


def main(program, first=1, count=20):
    lab = Lab(program)
    examples = [(name, (TOP / "examples" / name).read_text()) for name in ("turns-clients.am2", "run-withheld.am2", "run-plan.am2", "first.am2")]
    for name, text in examples + [(f"scenario {seed}", threaded_script(seed)) for seed in range(first, first + count)]:
        choice = random.Random(name)
        try_finding(lab, name, text, choice, None)
        try_finding(lab, name, text, choice, choice.choice([0, 100, choice.randint(1, 99)]))
        try_faults(lab, name, text, choice)
    for words in NO_WORDS:
        lab.check(" ".join(words), lab.told(words, examples[0][1]) == (2, ""))
    print(f"{lab.asked} answers of find and faults; {len(lab.wrong)} wrong")
    for it in lab.wrong:
        print(it)
    return 1 if lab.wrong else 0


if __name__ == "__main__":
    sys.exit(main(sys.argv[1], *(int(it) for it in sys.argv[2:4])))
