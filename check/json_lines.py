#!/usr/bin/env python3
"""What `am2_lab json` prints, against a second reading of the report's text: json_lines.py PROGRAM [SCENARIO REPORT]..

For each pair of files, or for each of examples/ without any, each line is read by Python's own json, and is to be the object that docs/JSON.md
describes: as many lines as entries, in order, with the members in their order. The values are read out of the report's words.
"""
import json
import pathlib
import subprocess
import sys

from chart import SERIAL, form_of, lines_of

ABOUT = ("ok", "zero", "ran", "accepted", "requeued", "returned", "sent", "delivered", "unknown", "refused", "again")


def about(event, outcome):
    """The message that an entry is about: the one that its outcome names first, or that it gives up."""
    if event[0] == "giveup" and outcome == ["ok"]:
        return event[2]
    if len(outcome) > 1 and outcome[0] in ABOUT and SERIAL.match(outcome[1]):
        return outcome[1]
    return None


def packet(actor, event, outcome):
    """The packet that an entry emits: its link and its number there."""
    if outcome[:1] == ["sent"]:
        return {"from": int(actor[1:]), "to": int(outcome[2]), "number": int(outcome[6])}
    if "answer" in outcome:
        return {"from": int(actor[1:]), "to": int(event[1]), "number": int(outcome[-1])}
    return None


def objects(report):
    """The objects of a report's journal. The stamps of a report that was printed by a program are 1, 2, 3 and so on."""
    lines, fates = lines_of(report)
    for place, line in enumerate(lines):
        actor, words = line.split(" ", 1)
        event, _, outcome = words.partition(" -> ")
        serial = about(event.split(), outcome.split())
        sends = outcome.split()[-1] if " sends " in outcome else None
        yield {
            "line": place + 3,
            "stamp": place + 1,
            "actor": actor,
            "event": event,
            "outcome": outcome or None,
            "serial": serial,
            "fate": fates.get(serial),
            "reply": sends,
            "packet": packet(actor, event.split(), outcome.split()),
        }


def pairs(words):
    """The scenarios and reports that are named, or those of examples/."""
    if words:
        return [(pathlib.Path(a).read_text(), pathlib.Path(b).read_text(), a) for a, b in zip(words[::2], words[1::2])]
    found = []
    for scenario in sorted((pathlib.Path(__file__).resolve().parent.parent / "examples").glob("*.am2")):
        text, report = scenario.read_text(), scenario.with_suffix(".out")
        if "segment" not in text and report.exists() and report.read_text().startswith("am2 report 1\n"):
            found.append((text, report.read_text(), scenario.name))
    return found


def main(program, words):
    bad = total = count = 0
    for scenario, report, name in pairs(words):
        done = subprocess.run([program, "json", form_of(scenario)], input=scenario + report, capture_output=True, text=True, check=False)
        total += 1
        told = [json.loads(line, object_pairs_hook=list) for line in done.stdout.splitlines()] if done.returncode == 0 else None
        expected = [json.loads(json.dumps(one), object_pairs_hook=list) for one in objects(report)]
        count += len(expected)
        if told != expected:
            bad += 1
            print(f"{name}: other objects than the report's words say")
    print(f"json: {count} objects of {total} reports read, {bad} reports differ")
    return 1 if bad or not total else 0


if __name__ == "__main__":
    if len(sys.argv) < 2:
        sys.exit(__doc__)
    sys.exit(main(sys.argv[1], sys.argv[2:]))
