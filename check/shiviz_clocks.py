#!/usr/bin/env python3
"""What `am2_lab json --shiviz` prints, against a second reading of the report's text: shiviz_clocks.py PROGRAM [SCENARIO REPORT]..

For each pair of files, or for each of examples/ without any, the text is cut by ShiViz's own regular expression, and each clock read by Python's json.
There is to be an event for each entry, in order: its node, its line, and a clock. The clocks are counted from what happened before an entry, as a set of
entries: all that lies behind the entry in front of it at each node that it touches, and behind the entry that sent the packet which it receives.
"""
import json
import re
import subprocess
import sys

from chart import form_of, lines_of
from json_lines import packet, pairs

EVENT = re.compile(r"(?P<host>\S*) (?P<clock>{.*})\n(?P<event>.*)\n")
REACHES = ("accepted", "requeued", "returned")


def homes_in(scenario):
    """The node of each endpoint."""
    words = [line.split() for line in scenario.splitlines()]
    return {it[1]: int(it[2]) for it in words if it[:1] == ["endpoint"]}


class Destinations:
    """Where each message goes: as its sender's index is mapped at its call, or back to the sender of the request that it answers."""

    def __init__(self):
        self.mapped, self.of = {}, {}

    def learn(self, event, outcome):
        """What an entry says of it."""
        if event[0] == "map" and outcome == ["ok"]:
            self.mapped[event[1], event[2]] = event[3]
        if event[0] == "request" and outcome[0] == "ok":
            self.of[outcome[1]] = self.mapped[event[1], event[2]]
        if "sends" in outcome:
            self.of[outcome[-1]] = outcome[1].split(".")[0]


def events(scenario, report):
    """The node, the clock and the line of each entry."""
    homes, sent, destinations = homes_in(scenario), {}, Destinations()
    at_node, behind, masks = {}, [], {}
    for place, line in enumerate(lines_of(report)[0]):
        left, _, right = line.partition(" -> ")
        (actor, *event), outcome = left.split(), right.split()
        destinations.learn(event, outcome)
        node = int(actor[1:]) if actor[0] in "id" else homes[event[1]]
        touched = {node}
        if event[0] == "carry" and outcome[0] in REACHES:
            touched.add(homes[destinations.of[outcome[1]]])
        past = 1 << place
        for it in touched:
            past |= at_node.get(it, 0)
        if event[0] == "receive":
            past |= behind[sent[int(event[1]), node, int(event[2])]]
        emitted = packet(actor, event, outcome)
        if emitted:
            sent[emitted["from"], emitted["to"], emitted["number"]] = place
        behind.append(past)
        for it in touched:
            at_node[it] = past
        masks[node] = masks.get(node, 0) | 1 << place
        counts = {f"n{it}": (past & mask).bit_count() for it, mask in sorted(masks.items())}
        yield f"n{node}", {it: count for it, count in counts.items() if count}, line


def read(text):
    """The events of a text, or None where it is more than they are."""
    found = list(EVENT.finditer(text))
    if "".join(it.group() for it in found) != text:
        return None
    return [(it["host"], json.loads(it["clock"]), it["event"]) for it in found]


def main(program, words):
    bad = total = count = 0
    for scenario, report, name in pairs(words):
        done = subprocess.run([program, "json", form_of(scenario), "--shiviz"], input=scenario + report, capture_output=True, text=True, check=False)
        total += 1
        expected = list(events(scenario, report))
        count += len(expected)
        if done.returncode or read(done.stdout) != expected:
            bad += 1
            print(f"{name}: other events than the report's words say")
    print(f"shiviz: {count} events of {total} reports read, {bad} reports differ")
    return 1 if bad or not total else 0


if __name__ == "__main__":
    if len(sys.argv) < 2:
        sys.exit(__doc__)
    sys.exit(main(sys.argv[1], sys.argv[2:]))
