#!/usr/bin/env python3
"""sweep.py PROGRAM [JOBS] [NAME..]: refuses each allocation of whole runs in turn, alone and with all later ones, and judges each answer.

The k-th allocation that the program's own code asks for is refused, for k from 1 until a run asks for fewer than k; refuse.c, which is preloaded, counts and refuses.
The answer has to be that of the run with nothing refused, or status 8 with `no memory`, or status 8 with nothing where the words of the command found no memory, and
nothing goes to standard error. A run with turns may print another report each time: one with status 0 is judged by check/judge.py, and made again entry by entry by
check/replay.py. Where a run with turns starts its threads, the C library asks for memory too: these allocations are refused in turn in lines of their own.
NAME.. are the inputs to try (of INPUTS), all by default. Prints a table, of which docs/MEMORY.md has the columns that differ, and each bad answer. The status is 1 where one was bad.
"""
import os
import struct
import subprocess
import sys
import tempfile
from collections import Counter
from concurrent.futures import ThreadPoolExecutor

TOP = os.path.join(os.path.dirname(os.path.abspath(__file__)), "..", "..")
sys.path.insert(0, os.path.join(TOP, "check"))

import made
from reports import judged
from scenario import tag_word

SECONDS = 60
TURNS = 1000
NO_MEMORY = b"no memory\n"


def text_of(scenario):
    """The lines of a scenario of the form Run."""
    lines = ["am2 1", "network packet"]
    lines += [f"{name} {getattr(scenario, name)}" for name in ("nodes", "frames", "channels", "tries", "bounces", "keep", "turns")]
    lines += [f"endpoint {end} {it.node} {tag_word(it.tag)}" for end, it in scenario.ends.items()]
    lines += [f"thread {thread} {thread % scenario.nodes}" for thread in scenario.threads]
    lines += [f"plan {a} {b} {k} {kind}" + (f" {late}" if kind == "late" else "") for (a, b, k), (kind, late) in scenario.plan.items()]
    return "\n".join(lines + [f"t{thread} {' '.join(call)}" for thread, call in scenario.script]) + "\n"


def made_text(turns):
    scenario = made.make(1)
    scenario.turns = turns
    return text_of(scenario)


def report(name):
    with open(os.path.join(TOP, "examples", f"{name}.out"), encoding="ascii") as file:
        return file.read()


def example(name, turns=0):
    with open(os.path.join(TOP, "examples", f"{name}.am2"), encoding="ascii") as file:
        text = file.read()
    return text.replace("nodes ", f"turns {turns}\nnodes ", 1) if turns else text


# name: the words of the command, the input, whether the run has turns
INPUTS = {
    "first": ("`step`, the first path", ["step"], lambda: example("first"), False),
    "paging": ("`step`, paging with a failed read", ["step"], lambda: example("paging"), False),
    "clients": ("`run`, two clients and a server", ["run"], lambda: example("run-clients"), False),
    "frames": ("`run`, frames and paging", ["run"], lambda: example("run-frames"), False),
    "make": ("`make 1`", ["make", "1"], lambda: "", False),
    "segments": ("`segments`, two transfers", ["segments"], lambda: example("segments"), False),
    "session": ("`session`", ["session"], lambda: example("session"), False),
    "count": ("`count 2 0`, ten words", ["count", "2", "0"], lambda: "a word is a word, and ten are ten words\n", False),
    "check": ("`check run`, two clients and a server", ["check", "run"], lambda: example("run-clients") + report("run-clients"), False),
    "clients-turns": (f"`run`, two clients and a server, {TURNS:,} turns", ["run"], lambda: example("run-clients", TURNS), True),
    "frames-turns": (f"`run`, frames and paging, {TURNS:,} turns", ["run"], lambda: example("run-frames", TURNS), True),
    "make-turns": (f"`run`, the scenario of `make 1`, {TURNS:,} turns", ["run"], lambda: made_text(TURNS), True),
}


class Sweep:
    """One input, and whose allocations are refused."""

    def __init__(self, program, preload, folder, name, of="program"):
        self.program, self.preload, self.folder, self.of = program, preload, folder, of
        self.title, self.words, text, self.turns = INPUTS[name]
        self.text = text()
        # what the words of a command ask for: another word of as many bytes asks for no more
        self.for_words = self.tried(None, False, words=["x" * len(it) for it in self.words])[3]
        self.wanted = self.tried(None, False)

    def tried(self, number, later, words=None):
        """Status, output, errors, how many allocations counted, how many were refused."""
        handle, path = tempfile.mkstemp(dir=self.folder)
        os.close(handle)
        settings = {"LD_PRELOAD": self.preload, "REFUSE_TO": path, "REFUSE_OF": self.of, "REFUSE_LATER": str(int(later)), "REFUSE_AT": str(number or 0)}
        try:
            found = subprocess.run([self.program, *(words or self.words)], input=self.text.encode(), capture_output=True, check=False, timeout=SECONDS, env=settings)
            answer = found.returncode, found.stdout, found.stderr
        except subprocess.TimeoutExpired:
            answer = "hangs", b"", b""
        with open(path, "rb") as file:
            counts = struct.unpack("QQ", file.read()[:16])
        os.remove(path)
        return *answer, *counts

    def kind(self, number, found):
        """Which of the allowed answers this is, or what is wrong with it."""
        status, printed, errors = found[:3]
        if errors:
            return f"it wrote an error: {errors[:80]!r}"
        if status == 8 and printed == NO_MEMORY:
            return "no memory"
        if status == 8 and not printed and self.of == "program" and number <= self.for_words:
            return "no words"
        if status != self.wanted[0]:
            return f"status {status}: {printed[:60]!r}"
        if not self.turns:
            return "the row" if printed == self.wanted[1] else f"status {status} with another text: {printed[:60]!r}"
        wrong, _ = judged(status, self.text, printed.decode())
        return "; ".join(wrong) or "the row"

    def at(self, number, later):
        found = self.tried(number, later)
        return number, found[4] > 0, self.kind(number, found) if found[4] else "the row"

    def way(self, pool, later):
        """The answers where something was refused: each kind's count, and the bad ones. Ends where a whole batch of runs asked for less."""
        kinds, bad, first, batch = Counter(), [], 1, 32
        while True:
            refused = False
            for number, was_refused, kind in pool.map(self.at, range(first, first + batch), [later] * batch):
                refused |= was_refused
                if kind not in ("the row", "no memory", "no words"):
                    bad.append((number, later, kind))
                elif was_refused:
                    kinds[kind] += 1
            if not refused:
                return kinds, bad
            first += batch

    def line(self, pool):
        asked = [self.tried(None, False)[3] for _ in range(10 if self.turns else 2)]
        alone, bad = self.way(pool, False)
        after, worse = self.way(pool, True)
        count = f"{min(asked):,} to {max(asked):,}" if min(asked) < max(asked) else f"{asked[0]:,}"
        told = " | ".join(f"{sum(it.values()):,} | {it['the row']:,} | {it['no memory']:,} | {it['no words']:,}" for it in (alone, after))
        print(f"| {self.title}{'' if self.of == 'program' else ', of the C library'} | {count} | {told} | {len(bad) + len(worse)} |", flush=True)
        for number, later, kind in bad + worse:
            print(f"bad: {' '.join(self.words)}, {self.of} allocation {number}{' and all later ones' if later else ' alone'}: {kind}", flush=True)
        return len(bad) + len(worse)


def main(program, jobs="2", *names):
    source = os.path.join(os.path.dirname(os.path.abspath(__file__)), "refuse.c")
    bad = 0
    with tempfile.TemporaryDirectory() as folder, ThreadPoolExecutor(int(jobs)) as pool:
        preload = os.path.join(folder, "refuse.so")
        subprocess.run(["cc", "-shared", "-fPIC", "-O", "-o", preload, source], check=True)
        print("| Input | Allocations | Alone: tried | the row | 8, `no memory` | 8, nothing | With all later: tried | the row | 8, `no memory` | 8, nothing | Bad |")
        print("|---|---|---|---|---|---|---|---|---|---|---|", flush=True)
        for name in names or INPUTS:
            bad += Sweep(os.path.abspath(program), preload, folder, name).line(pool)
            if INPUTS[name][3]:
                bad += Sweep(os.path.abspath(program), preload, folder, name, "library").line(pool)
    return 1 if bad else 0


if __name__ == "__main__":
    sys.exit(main(*sys.argv[1:]))
