#!/usr/bin/env python3
"""instructions.py PROGRAM [WORD]: the page faults, the misses of the first cache, the instructions and the most memory that the program takes for each input. Needs valgrind
and a C compiler.

Prints a table. None of these depends on what else the machine does. Page faults are the kernel's count of a whole run; instructions and misses are counted by cachegrind over
the whole program, reading and printing included, with a first cache for data of 32 kB in lines of 64 bytes, eight to a set. In brackets stands what an unverified program of
plain Rust for the same rules takes, with one thread and std only, which is no part of this repository: figures to go by. With WORD, only the rows that contain it.
"""
import os
import re
import subprocess
import sys
import tempfile

INPUTS = os.path.join(os.path.dirname(os.path.abspath(__file__)), "inputs.py")

# The caches that cachegrind plays, the first for data and the last: bytes, how many lines to a set, bytes of a line.
FIRST_CACHE, LAST_CACHE = "32768,8,64", "8388608,16,64"
# The level of the first cache, by which cachegrind names it behind a D for data.
LEVEL = 1

# what, the program's words, the input, and of plain Rust: page faults, millions of misses and of instructions, megabytes; None where it wasn't measured
ROWS = (
    ("`step`, direct network, 65,000 lines", "step", "direct 65000", 3285, 0.35, 132, 15),
    ("`step`, packet network, 65,000 lines", "step", "packet 65000", 3175, 0.34, 144, 14),
    ("`run`, 16,384 calls", "run", "calls 16384 0", 2120, 0.24, 105, 8),
    ("the same with 4,096 packets that come twice", "run", "calls 16384 4096", None, None, 117, 9),
    ("`run`, 256 endpoints on 16 nodes, 47,552 entries", "run", "crowd 16 0 16 176", 2020, 0.41, 112, 9),
    ("`make 1`", "make 1", "", None, None, 13, 3),
    ("`count 8 0`, a text of 40,000 bytes", "count 8 0", "words 40000", None, None, 215, 7.5),
    ("16 MB of comments", "step", "comments 16777000", None, None, 230, 18),
    ("one poll", "step", "poll", None, None, 0.5, 2.4),
)


def counted(command, path):
    """Millions of misses of the first cache, and of instructions."""
    with open(path, "rb") as given:
        caches = [f"--D{LEVEL}={FIRST_CACHE}", f"--LL={LAST_CACHE}"]
        words = ["valgrind", "--tool=cachegrind", "--cache-sim=yes", *caches, "--cachegrind-out-file=/dev/null", *command]
        found = subprocess.run(words, stdin=given, capture_output=True, check=False).stderr.decode()
    numbers = (re.search(rf"{word}:? +([\d,]+)", found)[1] for word in (f"D{LEVEL} +misses", "I +refs"))
    return [int(it.replace(",", "")) / 1_000_000 for it in numbers]


def used(peak, command, path):
    """The most memory that the program has at once, in megabytes, its page faults, and its status."""
    with open(path, "rb") as given:
        found = subprocess.run([peak, *command], stdin=given, stdout=subprocess.DEVNULL, stderr=subprocess.PIPE, check=False)
    most, faults = map(int, found.stderr.split())
    return most / 1024, faults, found.returncode


def main(program, word=""):
    program = os.path.abspath(program)
    with tempfile.TemporaryDirectory() as folder:
        peak = os.path.join(folder, "peak")
        subprocess.run(["cc", "-O", "-o", peak, os.path.join(os.path.dirname(INPUTS), "peak.c")], check=True)
        table(program, word, peak)


def beside(now, form, plain):
    """A figure with that of plain Rust and how many times as much it is, where there is one."""
    return format(now, form) if plain is None else f"{now:{form}} ({plain:,}: {now / plain:.1f})"


def table(program, word, peak):
    print("| Work | Page faults | Misses, M | Instructions, M | Memory, MB |")
    print("|---|---|---|---|---|")
    for what, words, given, *plain in ROWS:
        if word not in what:
            continue
        with tempfile.NamedTemporaryFile() as text:
            if given:
                subprocess.run([sys.executable, INPUTS, *given.split()], stdout=text, check=True)
            command = [program, *words.split()]
            misses, instructions = counted(command, text.name)
            most, faults, status = used(peak, command, text.name)
        told = "" if status == 0 else f", status {status}"
        cells = map(beside, (faults, misses, instructions, most), (",", ",.2f", ",.1f", ",.1f"), plain)
        print(f"| {what}{told} | {' | '.join(cells)} |", flush=True)


if __name__ == "__main__":
    main(*sys.argv[1:3])
