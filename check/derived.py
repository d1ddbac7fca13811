#!/usr/bin/env python3
"""derived.py LAB PROGRAM: what `am2_lab scenario` prints with `make`, `segments` and `count`, against the second reading of the rules and against `am2`.

What is printed spells the scenario that the manual tells; and run by `am2 run` it gives what `am2 make` sums up, what `am2 segments` prints in front of the segments, and, all
rounds together, how often `am2 count` says that each word ran.
"""
import collections
import dataclasses
import pathlib
import random
import re
import subprocess
import sys

from made import make
from randoms import faulty, segments_script
from reading import answer
from scenario import ALL, read
from segments import Expanded

TOP = pathlib.Path(__file__).resolve().parent.parent
MOST = 1_048_576


class Programs:
    """The two programs, and what was found wrong."""

    def __init__(self, lab, program):
        self.lab, self.program, self.asked, self.wrong = lab, program, 0, []

    def told(self, words, text=b"", by_lab=True):
        """The status and the output."""
        command = [self.lab, "scenario"] if by_lab else [self.program]
        done = subprocess.run([*command, *map(str, words)], input=text, capture_output=True, check=False)
        return done.returncode, done.stdout

    def check(self, what, right):
        self.asked += 1
        if not right:
            self.wrong.append(what)

    def run_of(self, scenario):
        """The lines of the report of a scenario's run."""
        status, report = self.told(["run"], scenario, by_lab=False)
        return report.decode().splitlines() if status == 0 else [f"status {status}"]


def plain(scenario):
    """A scenario whose calls have numbers for words, however they were spelled."""
    numbers = {"none": 0, "all": ALL}
    script = [(thread, [int(it) if it.isdigit() else numbers.get(it, it) for it in call]) for thread, call in scenario.script]
    return dataclasses.replace(scenario, script=script)


def made(programs, number):
    """The scenario of a number."""
    status, text = programs.told(["make", number])
    programs.check(f"make {number}: status {status}", status == 0)
    programs.check(f"make {number}: another scenario", plain(read(text.decode())) == plain(make(number)))
    _, summary = programs.told(["make", number], by_lab=False)
    report = programs.run_of(text)
    programs.check(f"make {number}: another run", summary.decode().splitlines()[2:] == [report[1], report[-1]])


def expanded(programs, name, text):
    """The scenario of a text with segments, or its first fault."""
    wanted, printed = answer(["segments"], text)
    status, scenario = programs.told(["segments"], text.encode("latin-1"))
    if wanted == 3:
        programs.check(f"{name}: {status} {scenario!r} for {printed!r}", (status, scenario.decode()) == (3, printed))
        return
    lines = "".join(line + "\n" for line in Expanded(text).lines)
    programs.check(f"{name}: status {status}", status == 0)
    programs.check(f"{name}: another scenario", plain(read(scenario.decode())) == plain(read(lines)))
    if wanted == 0:
        report = programs.run_of(scenario)
        programs.check(f"{name}: another run", printed.splitlines()[:len(report)] == report)


def words_of(text):
    """The words of a text that are sent."""
    return [word for word in re.findall(rb"[^\t\n\r ]+", text) if len(word) <= 24]


def word_in(words):
    """The word that the four words of a request carry."""
    length, *parts = map(int, words)
    return b"".join(part.to_bytes(8, "big") for part in parts)[:length]


def is_round(made_of, nodes, turns, sent):
    """Whether a scenario is the one that the manual tells of these words."""
    settings = (made_of.network, made_of.nodes, made_of.frames, made_of.channels, made_of.tries, made_of.bounces, made_of.log, made_of.turns)
    if settings != ("packet", nodes, 2, 1, 4, 3, 65536, turns) or made_of.plan or made_of.faults or made_of.steps:
        return False
    if {end: it.node for end, it in made_of.ends.items()} != {end: end // 2 for end in range(2 * nodes)} or made_of.threads != list(range(nodes)):
        return False
    names = {(call[1], call[2]): int(call[3]) for _, call in made_of.script if call[0] == "map"}
    first = next((place for place, (_, call) in enumerate(made_of.script) if call[0] == "request"), len(made_of.script))
    return made_of.script[first:] == [it for place, word in enumerate(sent) for it in sending(names, nodes, place, word)]


def sending(names, nodes, place, word):
    """The calls that send a word: one request to its owner, and the polls behind it."""
    thread = place % nodes
    sender, owner = str(2 * thread), str(2 * thread + 1)
    index = next(index for (end, index), name in names.items() if end == sender and name == 2 * (sum(word) % nodes) + 1)
    padded = word.ljust(24, b"\0")
    four = [str(len(word)), *(str(int.from_bytes(padded[at : at + 8], "big")) for at in (0, 8, 16))]
    return [(thread, ["request", sender, index, "1", *four]), *[(thread, ["poll", owner])] * nodes, (thread, ["poll", sender])]


def counted(programs, name, text, nodes):
    """The scenarios of the rounds of a text, and one more than it has."""
    sent, size, ran = words_of(text), 16_000 // (nodes + 2), collections.Counter()
    rounds = [sent[at : at + size] for at in range(0, len(sent), size)]
    for number, part in enumerate(rounds, 1):
        what = f"{name}, {nodes} nodes, round {number}"
        status, scenario = programs.told(["count", nodes, 0, number], text)
        programs.check(f"{what}: another scenario", status == 0 and is_round(read(scenario.decode()), nodes, 0, part))
        runs = [line.split()[3:] for line in programs.run_of(scenario) if line.startswith("run ")]
        ran.update(word_in(it) for it in runs if it)
    none = f"no round {len(rounds) + 1} of {len(rounds)}\n".encode()
    programs.check(f"{name}, {nodes} nodes: no refusal behind the last round", programs.told(["count", nodes, 0, len(rounds) + 1], text) == (12, none))
    _, told = programs.told(["count", nodes, 0], text, by_lab=False)
    rows = [line.split(b" ", 3) for line in told.split(b"\n") if line.startswith(b"word ")]
    programs.check(f"{name}, {nodes} nodes: other words ran", {word: int(times) for _, times, _, word in rows} == dict(ran))


def main(lab, program):
    """Tells what was found, and ends with 1 where something is wrong."""
    programs = Programs(lab, program)
    for number in (0, 1, 19, 2**64 - 1):
        made(programs, number)
    for example in sorted(TOP.glob("examples/segments*.am2")):
        expanded(programs, example.name, example.read_text(encoding="latin-1"))
    for seed in range(1, 21):
        text, draw = segments_script(seed), random.Random(f"derived {seed}")
        expanded(programs, f"random segments {seed}", text)
        expanded(programs, f"random segments {seed}, with a fault", faulty(draw, text))
    draw = random.Random(23)
    known = [bytes(draw.choices(range(97, 123), k=draw.randint(1, 30))) for _ in range(300)]
    texts = {"no word": b" \n", "three words": b"b a b\n", "4,000 words": b" ".join(draw.choices(known, k=4000))}
    texts["the README"] = (TOP / "README.md").read_bytes()
    for name, text in texts.items():
        for nodes in (1, 3, 8):
            counted(programs, name, text, nodes)
    programs.check("one byte too many", programs.told(["count", 8, 0, 1], b"a" * (MOST + 1)) == (11, b"text too long: more than 1048576 bytes\n"))
    for wrong in programs.wrong:
        print(wrong)
    print(f"derived: {programs.asked} answers, {len(programs.wrong)} wrong")
    return 1 if programs.wrong else 0


if __name__ == "__main__":
    if len(sys.argv) != 3:
        sys.exit(__doc__)
    sys.exit(main(*sys.argv[1:]))
