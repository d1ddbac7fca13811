#!/usr/bin/env python3
"""counts.py PROGRAM: the command `count` against a plain walk over the text.

Without turns nothing is left, and each word ran as often as it stands in the text; with turns what ran and what is left are so often. The texts: 20,000
words from 500 different ones, every byte value, words around 24 bytes, this repository's README, and the longest text that is counted, of short words; one
byte more is too long.
"""
import collections
import random
import re
import subprocess
import sys

MOST = 1_048_576


def plain(text):
    """How often each word stands in the text, by one walk."""
    return collections.Counter(re.findall(rb"[^\t\n\r ]+", text))


def counted(program, nodes, turns, text):
    """The status of the program, the counts of each word, and the totals."""
    found = subprocess.run([program, "count", str(nodes), str(turns)], input=text, capture_output=True, check=False, timeout=110)
    rows, totals, order = {}, {}, []
    for line in found.stdout.split(b"\n")[1:-1]:
        if line.startswith(b"word "):
            _, ran, left, word = line.split(b" ", 3)
            rows[word] = int(ran), int(left)
            order.append(word)
        else:
            name, number = line.split(b" ")
            totals[name.decode()] = int(number)
    head = f"am2 count {nodes} {turns}\n".encode()
    if not found.stdout.startswith(head) or order != sorted(rows):
        return None, rows, totals
    return found.returncode, rows, totals


def faults(program, nodes, turns, text):
    """What is wrong with the counts of a text."""
    status, rows, totals = counted(program, nodes, turns, text)
    words = plain(text)
    short = {word: number for word, number in words.items() if len(word) <= 24}
    wrong = []
    if status != 0:
        wrong.append(f"status {status}")
    if {word: ran + left for word, (ran, left) in rows.items()} != short:
        wrong.append("what ran and what is left of the words is not how often they stand in the text")
    left = sum(left for _, left in rows.values())
    if turns == 0 and left:
        wrong.append(f"{left} left without turns")
    long = sum(number for word, number in words.items() if len(word) > 24)
    if totals != {"words": sum(words.values()), "long": long, "left": left}:
        wrong.append(f"totals {totals}")
    return wrong


def texts():
    """Each text with its name."""
    source = random.Random(19)
    known = [bytes(source.choices(range(97, 123), k=source.randint(1, 24))) for _ in range(500)]
    yield "20,000 words", b" ".join(source.choices(known, k=20_000))
    yield "every byte", bytes(range(256)) + b"".join(bytes([byte, 32]) for byte in range(256))
    yield "around 24 bytes", b"\r".join(b"w" * size for size in range(1, 40)) * 2
    with open("README.md", "rb") as file:
        yield "the README", file.read()


def main(program):
    bad = runs = 0
    for name, text in texts():
        for nodes, turns in [(1, 0), (3, 0), (8, 0), (8, 1000)]:
            wrong = faults(program, nodes, turns, text)
            runs += 1
            if wrong:
                bad += 1
                print(f"{name}, {nodes} nodes, {turns} turns: " + "; ".join(wrong))
    longest = (b"to be or not to be that is the question " * 30_000)[:MOST]
    for text, wanted in [(longest, []), (longest + b" ", None)]:
        runs += 1
        if wanted is None:
            found = subprocess.run([program, "count", "8", "0"], input=text, capture_output=True, check=False, timeout=110)
            wrong = [] if (found.returncode, found.stdout) == (11, b"text too long\n") else [f"status {found.returncode}"]
        else:
            wrong = faults(program, 8, 0, text)
        if wrong:
            bad += 1
            print(f"{len(text)} bytes: " + "; ".join(wrong))
    print(f"counts: {runs} texts counted, {bad} bad")
    return 1 if bad else 0


if __name__ == "__main__":
    sys.exit(main(sys.argv[1]))
