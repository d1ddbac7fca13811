#!/usr/bin/env python3
"""What `am2_lab explain` tells of a scenario that is refused, by docs/LAB.md and the second reading of the rules: refusals.py PROGRAM.

It asks of each step script in examples/ with a step left out, with two steps exchanged, with a step of the other network, and with
short logs: of a step that can't happen, or that meets a full log, with `--front` and without. And it asks of the mistakes that are
usual: a report, or nothing, in place of a scenario; a script in place of a run, and the other way round.
"""
import pathlib
import random
import subprocess
import sys

from faults import first_fault
from machine import Cluster, LogFull, NotEnabled
from scenario import read

HEADS = "am2 network nodes frames channels tries bounces pool keep log turns endpoint bundle thread plan swapfault x t0 t1 t2 t3 i0 i1 i2 i3 d0 d1 d2 d3"
VERBS = "request poll pollb event eventb tag map unmap handler giveup close carry want bind expire receive drain unload load pageout pagein"
VALUES = "packet direct disk notempty noevents lose repeat late note echo add none all 0.1"
KEYWORDS = [*HEADS.split(), *VERBS.split(), *VALUES.split()]
LIMITS = [*map(str, range(17)), "32", "63", "64", "255", "10000", "65536", "4294967295", "18446744073709551615"]
WHOLE = (None, "missing", "twice", "too-many")
OTHER = {"step": "run", "run": "step"}
SENTENCES = {"step": "run reads on there: the text may be the scenario of a run\n", "run": "step reads on there: the text may be a step script\n"}


def fault_in(form, number, text):
    """What is wrong in the line with this number, if it has the first fault."""
    fault = first_fault(form, text)
    return fault[1] if fault and fault[0] == number else None


def reads_on(form, number, text):
    """Whether another word is read behind the text of a line."""
    return fault_in(form, number, text + " ?") != "missing"


def may_stand(form, number, front, word):
    """Whether a word may stand behind the text of a line."""
    return fault_in(form, number, front + word) in WHOLE and reads_on(form, number, front + word)


def stands(form, number, front):
    """The line that tells which words might stand behind the text of a line."""
    words = [it for it in KEYWORDS if may_stand(form, number, front, it)]
    if fault_in(form, number, front + "256") == "undeclared":
        words.append("declared numbers")
    else:
        numbers = [it for it in LIMITS if may_stand(form, number, front, it)]
        words += [f"numbers from {numbers[0]} to {numbers[-1]}"] if numbers else []
    return " ".join(["may stand there:", *words]) + "\n"


def first_word(line):
    """Where the first word of a line begins."""
    return len(line) - len(line.lstrip(" "))


def place_of(form, number, before, line, what):
    """At which byte of its line a fault is shown."""
    if what == "not-text":
        return next(at for at, it in enumerate(line) if not " " <= it <= "~")
    if what in ("twice", "too-many"):
        return first_word(line)
    if what == "missing":
        return len(line) + 1 if reads_on(form, number, before + line) else first_word(line)
    start = 0
    for at, it in enumerate(line):
        if it == " ":
            start = at + 1
        elif line[at + 1:at + 2] in ("", " ") and fault_in(form, number, before + line[:at + 1]) not in WHOLE:
            return start
    return None


def line_told(form, number, before, line, what):
    """The line with the fault, the mark, and which words might stand there."""
    at = place_of(form, number, before, line, what)
    told = "  " + "".join(it if " " <= it <= "~" else "?" for it in line) + "\n"
    if at is None:
        return told
    told += "  " + " " * at + "^\n"
    if what in ("twice", "too-many", "not-text"):
        return told
    front = before + line + " " if what == "missing" and at > len(line) else before + line[:at]
    return told + stands(form, number, front)


def explained(form, text):
    """What is told of a text that spells no scenario."""
    number, what = first_fault(form, text)
    lines = text.split("\n")[:-1] if text.endswith("\n") else text.split("\n") if text else []
    if number > len(lines):
        told = "the text ends there: each scenario has an am2 line, a network line and a nodes line\n"
    else:
        told = line_told(form, number, "".join(it + "\n" for it in lines[:number - 1]), lines[number - 1], what)
    told = f"refused line {number} {what}\n" + told
    if not text:
        return told + "there is no scenario: the text is empty, or begins with a report\n"
    other = first_fault(OTHER[form], text)
    reads = other is None or other[0] > number
    return told + (SENTENCES[form] if reads else "")


def place_words(place):
    """Where an endpoint is."""
    return f"frame {place}" if isinstance(place, int) else place


def found(cluster, words, why):
    """What a step finds that can't happen."""
    if why in ("not-direct", "not-packet"):
        return f"found network {cluster.scenario.network}\n"
    node, event = int(words[0][1:] or 0), words[1]
    if event == "expire":
        return ""
    if event == "receive":
        peer = int(words[2])
        return "" if cluster.scenario.network == "direct" else f"found link {peer} {node} packets {len(cluster.packets(peer, node))}\n"
    end = cluster.ends[int(words[2])]
    stands = [name for name in ("wanted", "draining", "closed") if getattr(end, name)]
    return " ".join([f"found endpoint {end.id} node {end.node} {place_words(end.place)}", *stands]) + "\n"


def source(text, number):
    """A line of a text, and the mark under its first word."""
    line = text.split("\n")[number - 1]
    return f"  {line}\n  {' ' * first_word(line)}^\n"


def stopped(text, front):
    """The status and the text that are told of a step script that is stopped; none where it isn't."""
    cluster = Cluster(read(text))
    for number, words in cluster.scenario.steps:
        try:
            cluster.apply(words)
        except NotEnabled as why:
            status, told = 3, f"refused line {number} not-enabled {why}\n" + source(text, number) + found(cluster, words, str(why))
        except LogFull as part:
            status, told = 6, f"log full {part}\n"
        else:
            continue
        return status, told + "".join(line + "\n" for line in cluster.lines if front)
    return None


def scripts(text, draw):
    """Step scripts like this one, of which some are stopped."""
    lines = text.splitlines()
    numbers = [number - 1 for number, _ in read(text).steps]
    head = lines[:numbers[0]]
    for at in draw.sample(numbers, min(6, len(numbers))):
        yield lines[:at] + lines[at + 1:]
        other = draw.choice(numbers)
        swapped = lines[:]
        swapped[at], swapped[other] = lines[other], lines[at]
        yield swapped
        end = min(read(text).ends)
        yield lines[:at] + [draw.choice([f"x carry {end}", f"x want {end}", f"i0 bind {end}", "i0 receive 0 9", "i0 expire 0 0", f"d0 load {end} 0", f"d0 drain {end}"])] + lines[at:]
    if not any(it.startswith("log ") for it in head):
        declared = next(at for at, it in enumerate(lines) if it.startswith("endpoint "))
        yield lines[:declared] + ["log 3"] + lines[declared:]


def answer(program, words, text):
    done = subprocess.run([program, *words], input=text.encode(), stdout=subprocess.PIPE, stderr=subprocess.PIPE, check=False)
    return done.returncode, done.stdout.decode("latin-1")


def stopped_wrongly(program, text):
    """What is wrong in what is told of scripts that are stopped, and how much was asked."""
    faults, asked = [], 0
    for lines in scripts(text, random.Random(text)):
        script = "".join(line + "\n" for line in lines)
        if first_fault("step", script):
            continue
        for front in (False, True):
            wanted = stopped(script, front)
            given = answer(program, ["explain", "step"] + ["--front"] * front, script)
            asked += 1
            if given != (wanted or (10, "check line 1 form\nno report behind the scenario\n")):
                faults.append(f"explain step, front {front}, of {script!r}: {given}, and by the rules {wanted}")
    return faults, asked


def mistaken_wrongly(program, text, report, form):
    """What is wrong in what is told of usual mistakes, and how much was asked."""
    faults = []
    for asked, given in ((OTHER[form], text), (form, ""), (form, "am2 check\n" + text), (form, text.replace("am2 ", "am3 ", 1))):
        if answer(program, ["explain", asked], given) != (3, explained(asked, given)):
            faults.append(f"explain {asked} of {given[:40]!r}")
    if answer(program, ["explain", form], report) != (3, explained(form, "")):
        faults.append(f"explain {form} of a report alone")
    return faults, 5


def main(program):
    """Tells what was found, and ends with 1 where something is wrong."""
    top = pathlib.Path(__file__).resolve().parent.parent / "examples"
    bad = total = 0
    for scenario in sorted(top.glob("*.am2")):
        text, report = scenario.read_text(), scenario.with_suffix(".out").read_text()
        forms = [form for form in OTHER if not first_fault(form, text)]
        if len(forms) != 1 or not report.startswith("am2 report 1\n"):
            continue
        told = [mistaken_wrongly(program, text, report, forms[0])]
        if forms[0] == "step":
            told.append(stopped_wrongly(program, text))
        for faults, asked in told:
            total, bad = total + asked, bad + len(faults)
            for fault in faults:
                print(f"{scenario.name}: {fault}")
    print(f"refusals: {total} answers, {bad} wrong")
    return 1 if bad or not total else 0


if __name__ == "__main__":
    sys.exit(main(sys.argv[1]) if len(sys.argv) == 2 else __doc__)
