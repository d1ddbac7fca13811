#!/usr/bin/env python3
"""growth.py PROGRAM: how the instructions of a run grow where its calls, plan lines, endpoints or nodes are doubled. Needs valgrind.

Prints a table: for each input its entries, the millions of instructions that the whole run takes (reading and printing included), and thousands of them for each entry. A cost that is
linear in the entries leaves the last column as it is.
"""
import os
import subprocess
import sys
import tempfile

sys.path.insert(0, os.path.dirname(os.path.abspath(__file__)))
from instructions import INPUTS, counted

# what is doubled, and the inputs, each by what it has and the words of inputs.py
SERIES = (
    ("calls", [(f"{it:,} calls", f"calls {it} 0") for it in (2048, 4096, 8192, 16384)]),
    ("plan lines", [(f"16,384 calls, {it:,} plan lines", f"calls 16384 {it}") for it in (512, 1024, 2048, 4096)]),
    ("endpoints", [(f"16 nodes, {16 * it} endpoints", f"crowd 16 0 {it} 176") for it in (4, 8, 16)]),
    ("nodes", [(f"{it} nodes, {16 * it} endpoints", f"crowd {it} 0 16 176") for it in (2, 4, 8, 16)]),
)


def entries(program, path):
    with open(path, "rb") as given:
        found = subprocess.run([program, "run"], stdin=given, capture_output=True, check=False)
    word, count = found.stdout.split(b"\n")[1].split()
    assert word == b"entries"
    return int(count)


def main(program):
    program = os.path.abspath(program)
    print("| Doubled | Input | Entries | Instructions | Thousands for each entry |")
    print("|---|---|---|---|---|")
    for what, inputs in SERIES:
        for name, words in inputs:
            with tempfile.NamedTemporaryFile() as text:
                subprocess.run([sys.executable, INPUTS, *words.split()], stdout=text, check=True)
                made, (_, count) = entries(program, text.name), counted([program, "run"], text.name)
            print(f"| {what} | {name} | {made:,} | {count:,.1f} M | {1000 * count / made:,.1f} |", flush=True)


if __name__ == "__main__":
    main(sys.argv[1])
