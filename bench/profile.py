#!/usr/bin/env python3
"""profile.py PROGRAM [COUNT]: which functions take the instructions of each row of bench/instructions.py. Needs valgrind.

Prints two tables. For each row the COUNT (ten) dearest functions with their share of the whole run's instructions, what they call aside; `copies` are those of the C library.
And for each row the millions of instructions by the part of the program: functions count where they stand after inlining.
"""
import os
import re
import subprocess
import sys
import tempfile

from instructions import INPUTS, ROWS


# the parts of the program, by how the names of their crates begin; the first that fits counts
PARTS = (
    ("reading", ("am_scenario", "am_lexer", "am_bundle", "memchr", "am_io", "am_segment")),
    ("endpoints", ("am_endpoint", "am_block", "am_translate", "am_handlers")),
    ("interfaces", ("am_iface", "am_channel", "am_wire")),
    ("merge", ("am_machine_journal::merge", "am_office_entries::logged")),
    ("cluster", ("am_machine", "am_model", "am_driver", "am_swap")),
    ("drain", ("am_cluster",)),
    ("words", ("am_job",)),
    ("printing", ("am_office", "am_main", "itoa")),
    ("copies and memory", ("__mem", "mem", "malloc", "realloc", "free", "_int_", "rattle_", "std_alloc", "std_heap", "sysmalloc", "mremap", "unlink_chunk")),
)


def part_of(function):
    name = function.lstrip("<")
    return next((part for part, heads in PARTS if name.startswith(heads)), "the rest")


def functions_of(program, words, given):
    """The functions of a run with their instructions, the dearest first, and the instructions in all."""
    with tempfile.TemporaryDirectory() as folder:
        text, out = os.path.join(folder, "text"), os.path.join(folder, "out")
        with open(text, "wb") as file:
            if given:
                subprocess.run([sys.executable, INPUTS, *given.split()], stdout=file, check=True)
        with open(text, "rb") as file:
            words = ["valgrind", "--tool=callgrind", f"--callgrind-out-file={out}", program, *words.split()]
            subprocess.run(words, stdin=file, stdout=subprocess.DEVNULL, stderr=subprocess.DEVNULL, check=False)
        told = subprocess.run(["callgrind_annotate", "--threshold=100", out], capture_output=True, text=True, check=False).stdout
    found = re.findall(r"^\s*([\d,]+) \(\s*[\d.]+%\)\s+[^\s:]*:(\S+) \[", told, re.M)
    total = int(re.search(r"^\s*([\d,]+) \(100.0%\)\s+PROGRAM TOTALS", told, re.M)[1].replace(",", ""))
    return [(function, int(number.replace(",", ""))) for number, function in found], total


def name_of(function):
    """The crate and the function, without modules and without what tells instances apart."""
    if function.startswith(("__mem", "mem")) and "::" not in function:
        return "copies"
    parts = [part for part in function.split("::") if not part.startswith("<")] or [function]
    return f"{parts[0]} `{parts[-1]}`" if len(parts) > 1 else f"`{parts[0]}`"


def main(program, count=10):
    program = os.path.abspath(program)
    runs = [(what, *functions_of(program, words, given)) for what, words, given, *_ in ROWS]
    print("| Work | The dearest functions, in hundredths of its instructions |")
    print("|---|---|")
    for what, functions, total in runs:
        told = ", ".join(f"{name_of(function)} {100 * number / total:.0f}" for function, number in functions[: int(count)])
        print(f"| {what} | {told} |")
    names = [part for part, _ in PARTS] + ["the rest"]
    print()
    print("| Work | " + " | ".join(names) + " |")
    print("|---" * (len(names) + 1) + "|")
    for what, functions, total in runs:
        sums = dict.fromkeys(names, 0)
        for function, number in functions:
            sums[part_of(function)] += number
        sums["the rest"] += total - sum(sums.values())
        print(f"| {what} | " + " | ".join(f"{sums[name] / 1_000_000:.1f}" for name in names) + " |")


if __name__ == "__main__":
    if len(sys.argv) < 2:
        sys.exit(__doc__)
    main(*sys.argv[1:3])
