#!/usr/bin/env python3
"""What `am2_lab` tells, against a second reading of the report's text: lab.py PROGRAM AM2 [SCENARIO REPORT]..

For each pair of files, or for each of examples/ without any: `why` of each message of the report, of one that it
lacks, and of one of an endpoint that the scenario lacks; and `explain` of the right report, of the report with each of
its lines changed in turn, of the report cut off behind each line, of the scenario alone, and of the scenario with a
line spoiled, four times; `why --front` and `chart --front` of the report with a line of its journal changed, cut off behind
it, and so with the line of a full log in front. The scenario tells its form. `scenario` prints it without a comment and printed again as it
is, and AM2, the program am2, judges and makes the same report of it. Of a run `replay` prints what AM2 makes the same
report of, callers aside.
"""
import pathlib
import random
import re
import subprocess
import sys

from faults import first_fault
from refusals import explained

CAUSES = {
    "no-endpoint": "its destination was closed",
    "not-resident": "its destination was in no frame, as often as it may bounce",
    "bad-tag": "its tag did not match that of its destination",
    "bad-handler": "its destination has no such handler",
    "queue-full": "its destination had no room, as often as it may bounce",
    "no-request": "its destination awaits no reply to such a request",
}
FATES = {
    "ran": "a poll at its destination ran it",
    "unknown": "its last try timed out with no answer, and no poll ran it",
    "unknown-but-ran": "its last try timed out with no answer, and a poll ran it",
}
# Where a pending message is, by the word of the last outcome that moves it; once put it stays.
PLACES = {
    "sent": "it was sent, and no answer has come",
    "requeued": "it was put back, to be sent again",
    "accepted": "it was put at its destination, and no poll ran it",
}


def told(program, command, form, text, *more):
    """The status and the output of the program."""
    words = [it for it in (program, command, form, *more) if it]
    done = subprocess.run(words, input=text, capture_output=True, text=True, check=False)
    return done.returncode, done.stdout


def form_of(scenario):
    """The form of a scenario: a run has threads or says how many turns they make."""
    words = [line.split() for line in scenario.splitlines() if line.strip()]
    return "run" if any(it[0] in ("thread", "turns", "make") for it in words) else "step"


def parts(line):
    """The words of an entry's event, and those of its outcome."""
    event, _, outcome = line.partition(" -> ")
    return event.split(), outcome.split()


def emitted(line):
    """The link and the number of the packet that an entry emits."""
    event, outcome = parts(line)
    if outcome[:1] == ["sent"]:
        return int(event[0][1:]), int(outcome[2]), int(outcome[6])
    if event[1] == "receive" and "answer" in outcome:
        return int(event[0][1:]), int(event[2]), int(outcome[-1])
    return None


def received(line):
    """The link and the number of the packet that an entry receives."""
    event, _ = parts(line)
    return (int(event[2]), int(event[0][1:]), int(event[3])) if event[1] == "receive" else None


def declared(scenario):
    """The endpoints that a scenario declares."""
    return {it[1] for it in map(str.split, scenario.splitlines()) if it[:1] == ["endpoint"]}


def why_of(scenario, plan, journal, fates, serial):
    """The status and the text that `why` should answer."""
    source = serial.split(".")[0]
    if source not in declared(scenario):
        return 12, f"no endpoint {source}\n"
    return 0, reasons(plan, journal, fates, serial)


def place_of(journal, serial):
    """Where a pending message is."""
    outcomes = [parts(line)[1] for line in journal]
    moves = [it[0] for it in outcomes if it[1:2] == [serial] and it[0] in PLACES]
    return "it waits to be sent" if not moves else PLACES["accepted" if "accepted" in moves else moves[-1]]


def reasons(plan, journal, fates, serial):
    """What `why` should tell of a message."""
    out = []
    for number, line in enumerate(journal, 3):
        event, outcome = parts(line)
        if serial not in outcome and not (event[1] == "giveup" and event[3] == serial and outcome == ["ok"]):
            continue
        out.append(f"line {number} {line}")
        packet = emitted(line)
        if packet:
            lines = [str(at) for at, other in enumerate(journal, 3) if received(other) == packet]
            fault = plan.get(packet, ["none"])
            end = ("received line " + " ".join(lines) if lines else "lost by the plan" if fault[0] == "lose"
                   else f"held back by the plan for {fault[1]}" if fault[0] == "late" else "not received")
            out.append(f"packet {packet[2]} from {packet[0]} to {packet[1]} {end}")
    fate = fates.get(serial)
    if not fate:
        out.append(f"message {serial} was never accepted")
    elif fate[0] == "returned":
        out.append(f"message {serial} returned: {CAUSES[fate[1]]}")
    elif fate[0] == "pending":
        out.append(f"message {serial} pending: {place_of(journal, serial)}")
    else:
        out.append(f"message {serial} {fate[0]}: {FATES[fate[0]]}")
    return "\n".join(out) + "\n"


def judge(program, scenario, report):
    """The faults that are found in what is told of a report, and how much was asked."""
    form, lines, faults, asked = form_of(scenario), report.splitlines(), [], 0
    count = int(lines[1].split()[1])
    journal = lines[2:2 + count]
    plan = {(int(it[1]), int(it[2]), int(it[3])): it[4:] for it in map(str.split, scenario.splitlines()) if it[:1] == ["plan"]}
    fates = {it[1]: it[3:] for it in map(str.split, lines[2 + count:]) if it[:1] == ["fate"]}
    for serial in [*fates, "255.9", f"{min(declared(scenario), default=0)}.4294967295"]:
        asked += 1
        if told(program, "why", form, scenario + report, serial) != why_of(scenario, plan, journal, fates, serial):
            faults.append(f"why {form} {serial}")
    asked += 2
    if told(program, "explain", form, scenario) != (10, "check line 1 form\nno report behind the scenario\n"):
        faults.append(f"explain {form} of the scenario alone")
    if told(program, "explain", form, scenario + report) != (0, "check ok\n"):
        faults.append(f"explain {form}")
    for at, line in enumerate(lines):
        changed = lines[:at] + [line + ("0" if at < 2 or not line[-1:].isdigit() else " 0")] + lines[at + 1:]
        status, text = told(program, "explain", form, scenario + "\n".join(changed) + "\n")
        asked += 1
        if at >= 2 + count:
            right = status == 10 and text == f"check line {at + 1} tail\ndue {line}\n"
        elif at == 0:
            refused = f"refused line {len(scenario.splitlines()) + 1} out-of-place\n  {changed[0]}\n  ^\n"
            right = status == 3 and text.startswith(refused + "may stand there:") and text.count("\n") == 4
        elif at == 1:
            right = status == 10 and text.startswith("check line ")
        else:
            # (a line without an outcome reads as none, or as another event)
            first = text.splitlines()[0] if text else ""
            right = status == 10 and first.startswith(f"check line {at + 1} ") and (not first.endswith("outcome") or text == f"{first}\ndue {line}\n")
        if not right:
            faults.append(f"explain {form} with line {at + 1} changed: {status} {text!r}")
        if at == len(lines) - 1:
            continue
        status, text = told(program, "explain", form, scenario + "\n".join(lines[:at + 1]) + "\n")
        asked += 1
        due = f"check line {at + 2} tail\ndue {lines[at + 1]}\n" if at + 1 >= 2 + count else f"check line {at + 2} form\n"
        if (status, text) != (10, due):
            faults.append(f"explain {form} cut off behind line {at + 1}: {status} {text!r}")
    return faults, asked


def fates_in(journal):
    """The fates of the messages of a journal, whatever stands behind it."""
    outcomes = [(*parts(line),) for line in journal]
    accepted = [out[1] for event, out in outcomes if event[1] == "request" and out[:1] == ["ok"]]
    accepted += [out[4] for _, out in outcomes if out[:1] == ["ran"] and out[3:4] == ["sends"]]
    fates = {}
    for serial in accepted:
        words = [out for _, out in outcomes if out[1:2] == [serial]]
        causes = [out[2] for out in words if out[0] == "returned"]
        lost, ran = ["unknown", serial] in words, any(out[0] == "ran" for out in words)
        fates[serial] = ["returned", causes[0]] if causes else [("unknown-but-ran" if ran else "unknown") if lost else "ran" if ran else "pending"]
    return fates


def fronts_wrongly(program, scenario, report):
    """What is wrong in what is told and drawn in front of a fault, and how much was asked."""
    form, lines, faults, asked = form_of(scenario), report.splitlines(), [], 0
    count = int(lines[1].split()[1])
    plan = {(int(it[1]), int(it[2]), int(it[3])): it[4:] for it in map(str.split, scenario.splitlines()) if it[:1] == ["plan"]}
    serials = [*fates_in(lines[2:2 + count]), "255.9"]
    for at in range(2, 2 + count):
        front, serial = lines[2:at], serials[at % len(serials)]
        told_there = reasons(plan, front, fates_in(front), serial)
        changed = "\n".join(lines[:at] + [lines[at] + (" 0" if lines[at][-1:].isdigit() else "0")] + lines[at + 1:]) + "\n"
        cut = "\n".join(lines[:at]) + "\n"
        for spoiled in (changed, cut):
            first = told(program, "explain", form, scenario + spoiled)[1].splitlines()[0]
            for full in ("", "log full 0\n"):
                asked += 2
                status = 6 if full else 10
                if told(program, "why", form, scenario + full + spoiled, "--front", serial) != (status, f"{full}{first}\n{told_there}"):
                    faults.append(f"why {form} --front {serial} in front of line {at + 1}")
                said = f"{full.strip()}, {first}" if full else first
                drawn = told(program, "chart", form, scenario + full + spoiled, "--front")
                row = f'class="fault" color="#b3261e"><title>first fault: line {at + 1}</title>{said}</text></svg>\n'
                if drawn[0] != status or not drawn[1].startswith("<svg ") or not drawn[1].endswith(row) or drawn[1].count("<g><title>") != at - 2:
                    faults.append(f"chart {form} --front in front of line {at + 1}")
    for words in (("why", serials[0]), ("chart",)):
        asked += 1
        if told(program, words[0], form, scenario + report, "--front", *words[1:]) != told(program, words[0], form, scenario + report, *words[1:]):
            faults.append(f"{words[0]} {form} --front of a right report")
    return faults, asked


def spoiled_scenario(draw, lines):
    """The lines of a scenario, of which one is spoiled: a word replaced, the last word gone or another behind it, a byte that
    may not stand there, or the line once more, at another place."""
    at = draw.choice([it for it, line in enumerate(lines) if line.strip() and line.lstrip()[0] != "#"])
    line = lines[at]
    word = draw.choice(list(re.finditer(r"[^ ]+", line)))
    spoils = [line[:word.start()] + other + line[word.end():] for other in ("?", "257", "poll")]
    spoils += [line.rpartition(" ")[0] or line, line + "  7", line[:word.start()] + "\t" + line[word.end():]]
    rest = lines[:at] + [draw.choice(spoils)] + lines[at + 1:]
    if draw.random() < 0.2:
        rest = lines[:]
        rest.insert(draw.randrange(len(lines) + 1), line)
    return "".join(it + "\n" for it in rest)


def refused_wrongly(program, scenario):
    """What is wrong in what is told of a scenario that is spoiled, and how much was asked."""
    faults, asked = [], 0
    draw = random.Random(scenario)
    for text in [spoiled_scenario(draw, scenario.splitlines()) for _ in range(4)]:
        for reader in ("step", "run"):
            if first_fault(reader, text):
                asked += 1
                answer = told(program, "explain", reader, text)
                if answer != (3, explained(reader, text)):
                    faults.append(f"explain {reader} of {text!r}: {answer}")
    return faults, asked


def printed_wrongly(program, am2, scenario, report):
    """What is wrong with the scenario as it is printed, and how much was asked."""
    form, faults = form_of(scenario), []
    status, text = told(program, "scenario", form, scenario)
    if status or re.search(r"^ |#|  | $|^$| 0[0-9]", text.removesuffix("\n"), re.M):
        faults.append(f"scenario {form}: {status} {text!r}")
    if told(program, "scenario", form, text) != (0, text):
        faults.append(f"scenario {form} prints its own text otherwise")
    if told(am2, "check", form, text + report) != (0, "check ok\n"):
        faults.append(f"the report isn't that of what scenario {form} prints")
    if "turns 0\n" in text and told(am2, form, None, text) != (0, report):
        faults.append(f"am2 {form} prints another report of what scenario {form} prints")
    if told(program, "scenario", form, text + "surely not\n")[0] != 3:
        faults.append(f"scenario {form} takes a line that is none")
    return faults, 5


def replayed_wrongly(program, am2, scenario, report):
    """What is wrong with the replay of a report, and how much was asked."""
    form, faults = form_of(scenario), []
    status, text = told(program, "replay", form, scenario + report)
    if form == "step":
        return ([] if status == 2 else [f"replay step: {status} {text!r}"]), 1
    again = re.sub(r"^t\d+ ", "x ", report, flags=re.M)
    if status or told(am2, "step", None, text) != (0, again):
        faults.append(f"replay {form} makes another report")
    if told(program, "replay", form, scenario + report + "0\n")[0] != 10:
        faults.append(f"replay {form} takes a wrong report")
    return faults, 2


def main(program, am2, *files):
    """Tells what was found, and ends with 1 where something is wrong."""
    top = pathlib.Path(__file__).resolve().parent.parent / "examples"
    pairs = list(zip(files[::2], files[1::2])) or [(it, it.with_suffix(".out")) for it in sorted(top.glob("*.am2"))]
    bad = total = 0
    for scenario, report in pairs:
        scenario, report = pathlib.Path(scenario), pathlib.Path(report).read_text()
        if not report.startswith("am2 report 1\n") or "segment" in scenario.read_text():
            continue
        text = scenario.read_text()
        both = [judged(program, am2, text, report) for judged in (printed_wrongly, replayed_wrongly)]
        both += [refused_wrongly(program, text), fronts_wrongly(program, text, report)]
        for faults, asked in [judge(program, text, report), *both]:
            total += asked
            bad += len(faults)
            for fault in faults:
                print(f"{scenario.name}: {fault}")
    print(f"lab: {total} answers, {bad} wrong")
    return 1 if bad else 0


if __name__ == "__main__":
    if len(sys.argv) < 3:
        sys.exit(__doc__)
    sys.exit(main(*sys.argv[1:]))
