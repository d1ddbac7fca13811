#!/usr/bin/env python3
"""shrinks.py LAB AM2 [FIRST] [COUNT]: what `am2_lab shrink` prints of the examples, and of COUNT random step scripts and as many random runs from FIRST on (10 from 1). It is asked for
the first words of some lines of the report, in which each serial E.K is E.*.

What is printed must be lines of the text, in their order; its report must have such a line; and the report of no text with one line less. The report of a step script is what `am2 step`
prints, that of a run what `am2 run` prints without the lines `turns`, of which none may stay; that by a seed is what `am2_lab schedule` prints. Words that no line begins with, a text
with a fault, one that meets a full log and one with too many lines are told.
"""
import pathlib
import random
import re
import subprocess
import sys

from randoms import run_script, step_script, threaded_script

TOP = pathlib.Path(__file__).resolve().parent.parent
EXAMPLES = {
    "step": ("blocked", "bounces", "credits", "delayed", "full-queue", "loss", "paging", "pools", "unknown"),
    "run": ("run-clients", "run-frames", "run-plan", "run-withheld"),
}
TURNS = re.compile(r"^ *turns .*\n", re.M)
SERIAL = re.compile(r"^(\d+)\.\d+$")


def printed(words, text):
    """The status and the output of a program."""
    done = subprocess.run(words, input=text.encode(), capture_output=True, check=False)
    return done.returncode, done.stdout.decode()


def is_like(given, word):
    return word.startswith(given[:-1]) if given.endswith("*") else given == word


def begins(given, line):
    words = line.split()
    return len(words) >= len(given) and all(map(is_like, given, words))


class Asked:
    """A text, and the words of a line that its report has."""

    def __init__(self, programs, form, seed, text):
        self.lab, self.am2 = programs
        self.form, self.seed, self.text = form, seed, text

    def report(self, text):
        """The status and the lines of the report."""
        if self.seed is not None:
            words = [self.lab, "schedule", str(self.seed)]
        else:
            words, text = [self.am2, self.form], TURNS.sub("", text)
        status, out = printed(words, text)
        return status, out.splitlines()

    def shows(self, given, text):
        status, lines = self.report(text)
        return status == 0 and any(begins(given, line) for line in lines)

    def shrunk(self, given):
        by_seed = [] if self.seed is None else ["--seed", str(self.seed)]
        return printed([self.lab, "shrink", self.form, *by_seed, *given], self.text)

    def wrong(self, given):
        """What is wrong in what is printed, if anything is."""
        status, out = self.shrunk(given)
        lines, rest = out.splitlines(keepends=True), iter(self.text.splitlines())
        if status != 0:
            return f"status {status}"
        if not all(line.rstrip("\n") in rest for line in lines):
            return "other lines"
        if self.seed is None and TURNS.search(out):
            return "turns stayed"
        if not self.shows(given, out):
            return "no such line"
        for place in range(len(lines)):
            if self.shows(given, "".join(lines[:place] + lines[place + 1:])):
                return f"line {place + 1} can be left out"
        return None


def beginnings(draw, lines):
    """The first words of some of a report's lines."""
    some = draw.sample(lines, min(2, len(lines))) + [line for line in lines if line.startswith("fate ")][:1]
    return [[SERIAL.sub(r"\1.*", word) for word in line.split()[: draw.randint(2, 5)]] for line in some]


def told_wrongly(lab, am2):
    """What is told in another way in place of a scenario."""
    first = (TOP / "examples/first.am2").read_text()
    full, faulty = first.replace("network", "log 1\nnetwork", 1), "am2 3\n"
    cases = [
        ("no such line", "9.*", first, (12, "no such line\n")),
        ("too many lines", "*", first + "#\n" * 4097, (11, "more than 4096 lines\n")),
        ("a full log", "*", full, printed([am2, "step"], full)),
        ("a fault", "*", faulty, printed([am2, "step"], faulty)),
    ]
    return [name for name, serial, text, due in cases if printed([lab, "shrink", "step", "fate", serial], text) != due or due[0] == 0]


def texts(first, count):
    """Each text with its name, its form and the seed that it is run by, if it is."""
    for form, names in EXAMPLES.items():
        for name in names:
            yield name, form, None, (TOP / f"examples/{name}.am2").read_text()
    yield "turns-clients", "run", 7, (TOP / "examples/turns-clients.am2").read_text()
    for seed in range(first, first + count):
        yield f"steps {seed}", "step", None, step_script(seed)
        yield f"run {seed}", "run", None, run_script(seed)
    yield f"turns {first}", "run", None, threaded_script(first)


def main(lab, am2, first=1, count=10):
    asked, wrong = 0, told_wrongly(lab, am2)
    for name, form, seed, text in texts(first, count):
        it = Asked((lab, am2), form, seed, text)
        status, lines = it.report(text)
        for given in beginnings(random.Random(name), lines) if status == 0 else []:
            found, asked = it.wrong(given), asked + 1
            if found:
                wrong.append(f"{name}, {' '.join(given)}: {found}")
    print(f"{asked} scenarios shrunk; {len(wrong)} wrong")
    for it in wrong:
        print(it)
    return 1 if wrong else 0


if __name__ == "__main__":
    sys.exit(main(*sys.argv[1:3], *(int(it) for it in sys.argv[3:5])))
