#!/usr/bin/env python3
"""A run one of whose workers finds no memory answers status 8 with `no memory` and nothing else, or its whole report where it can do without: starved.py AM2_LAB

The workers take their turns by a seed (`am2_lab schedule SEED`), on one thread, so that a run asks for the same memory in the same order each time. bench/memory/refuse.c, which
is preloaded, refuses one allocation of a run and gives all others, for each in turn from the first behind those of the command's words. A refusal before the turns ends the
run at once, and so does one behind them; after one in a worker's turn that worker stops and the others make their turns. So where the program asks for more memory behind a
refusal than behind the first one, which ends the run while it reads, a worker was refused memory in its turn. Each scenario and seed must have such refusals.
"""
import os
import struct
import subprocess
import sys
import tempfile
from pathlib import Path

TOP = Path(__file__).resolve().parent.parent
TURNS = 40
SEEDS = ("1", "2")


def scenario(name):
    """An example with so many turns."""
    lines = [it for it in (TOP / "examples" / name).read_text(encoding="ascii").splitlines() if not it.startswith("turns ")]
    at = next(k for k, line in enumerate(lines) if line.startswith("nodes ")) + 1
    return "".join(line + "\n" for line in [*lines[:at], f"turns {TURNS}", *lines[at:]])


class Refuser:
    """The program with one allocation refused."""

    def __init__(self, program, folder):
        self.program, self.preload, self.counts = program, str(folder / "refuse.so"), folder / "counts"
        subprocess.run(["cc", "-shared", "-fPIC", "-O", "-o", self.preload, str(TOP / "bench/memory/refuse.c")], check=True)

    def run(self, seed, text, number):
        """Status, output, errors, how many allocations the program asked for, how many were refused."""
        settings = {"PATH": os.environ.get("PATH", ""), "LD_PRELOAD": self.preload, "REFUSE_TO": str(self.counts), "REFUSE_AT": str(number)}
        found = subprocess.run([self.program, "schedule", seed], input=text.encode(), capture_output=True, check=False, timeout=60, env=settings)
        asked, refused = struct.unpack("QQ", self.counts.read_bytes()[:16])
        return found.returncode, found.stdout, found.stderr, asked, refused


def tried(refuser, name, seed):
    """What is wrong with the runs of this scenario and seed, how many there were, and in how many a worker was refused memory in its turn."""
    text = scenario(name)
    told, behind = [], []
    status, report, _, asked, _ = refuser.run(seed, text, 0)
    if status:
        return [f"{name}, seed {seed}: status {status} with nothing refused"], 0, 0
    words = refuser.run(seed, "", 0)[3]
    for number in range(words + 1, asked + 1):
        status, printed, errors, seen, refused = refuser.run(seed, text, number)
        if refused != 1:
            told.append(f"{name}, seed {seed}: allocation {number} of {asked} isn't asked for again")
        # (where the program can do without, as for room that it would only like, its report is the one that it makes with nothing refused)
        if (status, printed, errors) not in ((8, b"no memory\n", b""), (0, report, b"")):
            told.append(f"{name}, seed {seed}, allocation {number}: status {status}, {printed[:60]!r}, {errors[:60]!r}")
        behind.append(seen - number)
    in_turn = sum(it > behind[0] for it in behind)
    if not in_turn:
        told.append(f"{name}, seed {seed}: no worker was refused memory in its turn")
    return told, len(behind), in_turn


def main(program):
    told, runs, in_turn = [], 0, 0
    with tempfile.TemporaryDirectory() as folder:
        refuser = Refuser(os.path.abspath(program), Path(folder))
        for name in ("turns-clients.am2", "run-frames.am2"):
            for seed in SEEDS:
                wrong, count, turns = tried(refuser, name, seed)
                told, runs, in_turn = told + wrong, runs + count, in_turn + turns
    print(*told[:20], f"starved: {runs} runs, in {in_turn} a worker was refused memory in its turn, {len(told)} bad", sep="\n")
    return 1 if told else 0


sys.exit(main(*sys.argv[1:]))
