#!/usr/bin/env python3
"""blocks.py [PROGRAM]: what the documents show is what comes of it.

A block that is marked `am2 step`, `am2 run`, `am2 segments` or `am2 session` is a whole input of that command, and ends with status 0; where a block marked `report` follows,
that is what the program prints, and it may be a refusal. A block marked `possible report` is one of several reports of the block before, and `am2 check` says so. A block marked
`console` has commands behind `$ `, each with what it prints. A line `...` stands for lines that are left out. Without a program the second reading of the rules is taken, and what it can't do is left out; a script
of the examples, which calls bin/am2, is run for that program alone.
"""
import glob
import re
import subprocess
import sys

READING = "python3 -B check/reading.py"
UNKNOWN = re.compile(r"bin/am2 count|bin/am2_lab")
SCRIPT = re.compile(r"examples/\S+\.sh")
BLOCK = re.compile(r"^```([^\n]*)\n(.*?)^```$", re.M | re.S)


def shell(command, given):
    found = subprocess.run(["bash", "-c", command], input=given.encode(), capture_output=True, check=False, timeout=60)
    return found.returncode, found.stdout.decode()


def fits(shown, printed):
    """Whether what is shown is what is printed, but for what is left out."""
    parts = ["".join(re.escape(line) + "\n" for line in part) for part in split(shown.splitlines())]
    return re.fullmatch(r"(?:.*\n)*?".join(parts), printed) is not None


def split(lines):
    """The lines between those that stand for what is left out."""
    parts = [[]]
    for line in lines:
        if line == "...":
            parts.append([])
        else:
            parts[-1].append(line)
    return parts


def commands(text):
    """Each command of a console block, with what it shows."""
    for part in re.split(r"^\$ ", text, flags=re.M)[1:]:
        yield part.split("\n", 1)


class Blocks:
    def __init__(self, program):
        self.program = program or READING
        self.built = program is not None
        self.tried = self.left_out = 0
        self.wrong = []

    def page(self, path):
        words, given, printed = None, "", ""
        with open(path, encoding="utf-8") as text:
            blocks = BLOCK.findall(text.read())
        for place, (mark, text) in enumerate(blocks):
            answer = blocks[place + 1][0] if place + 1 < len(blocks) else ""
            if mark.startswith("am2 "):
                words, given = mark.split()[1:], text
                printed = self.scenario(path, words, given, answer == "report")
            elif mark == "report":
                self.told(path, " ".join(words), text, printed)
            elif mark == "possible report":
                self.console(path, f"bin/am2 check {words[0]}", given + text, "check ok\n")
            elif mark == "console":
                for command, shown in commands(text):
                    self.console(path, command, "", shown)

    def scenario(self, path, words, given, may_fail):
        """What the program prints of a whole input."""
        status, printed = shell(f"{self.program} {' '.join(words)}", given)
        self.tried += 1
        if status and not may_fail:
            self.wrong.append(f"{path}: a block for {' '.join(words)} ends with status {status}: {printed}")
        return printed

    def console(self, path, command, given, shown):
        if not self.built and UNKNOWN.search(command) or self.program != "bin/am2" and SCRIPT.search(command):
            self.left_out += 1
            return
        _, printed = shell(re.sub(r"\bbin/am2\b", self.program, command), given)
        self.tried += 1
        self.told(path, command, shown, printed)

    def told(self, path, what, shown, printed):
        if not fits(shown, printed):
            self.wrong.append(f"{path}: `{what}` prints otherwise:\n{printed}")


def main(program=None):
    blocks = Blocks(program)
    for path in ["README.md", *sorted(glob.glob("docs/*.md"))]:
        blocks.page(path)
    print(*blocks.wrong, f"blocks: {blocks.tried} tried, {blocks.left_out} left out, {len(blocks.wrong)} wrong", sep="\n")
    return 1 if blocks.wrong or blocks.tried < 20 else 0


if __name__ == "__main__":
    sys.exit(main(*sys.argv[1:2]))
