#!/usr/bin/env python3
"""What `am2_lab state` tells, against a second reading of the machine: state.py PROGRAM [FIRST COUNT]

The state behind each line of each right report of examples/ and at its end, and how the states of some lines differ, by the rules of docs/MANUAL.md and the form of docs/STATE.md.
With FIRST and COUNT also those of some lines of the reports of the random step scripts and runs of these seeds.
"""
import pathlib
import random
import sys

from lab import form_of, told
from machine import Cluster
from randoms import run_script, step_script
from reading import answer
from scenario import read, tag_of, tag_word


def place_word(place):
    return f"frame {place}" if isinstance(place, int) else place


def message_word(message):
    return f"{message.kind} {message}"


def serial_word(serial):
    return "{}.{}".format(*serial)


def end_lines(pool, end):
    """The lines of an endpoint."""
    flags = [name for name in ("wanted", "draining", "closed") if getattr(end, name)]
    yield " ".join([f"node {end.node}", place_word(end.place), *flags])
    if end.place == "disk":
        return
    yield f"tag {tag_word(end.tag)}"
    yield f"accepted {end.accepted}"
    yield f"sum {end.sum}"
    if pool is not None:
        yield f"pool {pool}"
    for index, (name, tag, credits) in sorted(end.mapped.items()):
        yield f"map {index} to {name} tag {tag_word(tag)} {'credits' if pool is None else 'share'} {credits} out {end.records_at(index)}"
    for index, kind in sorted(end.handlers.items()):
        yield " ".join(str(it) for it in ("handler", index, *kind))
    for record in end.records:
        yield f"record {serial_word(record.serial)} index {record.index} {'arrived' if record.arrived else 'waits'}"
    for queued in end.replies + end.requests:
        yield f"queued {message_word(queued.message)} bounces {queued.bounces}"
    for flight in end.in_flight:
        yield f"in-flight {message_word(flight.message)} bounces {flight.bounces} {'answered' if flight.answered else 'unanswered'}"
    for notice in end.notices:
        yield f"notice {message_word(notice.message)} bounces {notice.bounces} {notice.why}"
    for message in end.received:
        yield f"received {message_word(message)}"


def messages_named(end):
    """The messages that the lines of an endpoint name."""
    if end.place == "disk":
        return set()
    lists = (end.replies, end.requests, end.in_flight, end.notices)
    return {record.serial for record in end.records} | {it.message.serial for held in lists for it in held} | {it.serial for it in end.received}


def channel_lines(cluster, node, peer, number):
    """The lines of the two ends that a node has of a channel."""
    sender = cluster.senders.get((node, peer, number))
    if sender and sender.message:
        yield f"channel {node} to {peer} {number} holds {sender.message} sequence {sender.sequence} attempt {sender.attempt}"
    mark = cluster.marks.get((peer, node, number))
    if mark:
        yield f"channel {node} from {peer} {number} mark sequence {mark[0]} attempt {mark[1]} {mark[2]}"


class States:
    """A machine that makes the entries of a report, and tells its state."""

    def __init__(self, scenario, text):
        self.scenario = read(scenario)
        self.cluster = Cluster(self.scenario)
        self.calls = {thread: [call for it, call in self.scenario.script if it == thread] for thread in self.scenario.threads}
        self.made = dict.fromkeys(self.calls, 0)
        # of each link the numbers of the packets that were received, in order
        self.received = {}
        # the endpoints of which a disk has an image, and the lines in which messages were accepted
        self.written = {id for id, it in self.scenario.ends.items() if it.disk}
        self.accepted_in = {}
        lines = text.splitlines()
        self.journal = lines[2:2 + int(lines[1].split()[1])]

    def make(self, line):
        """Makes the entry of a line."""
        words = line.split(" -> ")[0].split()
        if words[0][0] == "t":
            self.made[int(words[0][1:])] += words[1] != "want"
        if words[1] == "receive":
            link = (int(words[2]), int(words[0][1:]))
            self.received.setdefault(link, []).append(int(words[3]))
        if words[1] == "want":
            self.cluster.want(words[0], int(words[2]))
        elif words[0][0] == "t":
            self.cluster.call(words[0], words[1:])
        else:
            self.cluster.apply(words)
        if self.cluster.lines[-1] != line:
            raise ValueError(f"the rules make '{self.cluster.lines[-1]}', not '{line}'")
        if words[1] == "pageout" and line.endswith(" -> ok"):
            self.written.add(int(words[2]))
        for serial in self.cluster.accepted:
            self.accepted_in.setdefault(serial, len(self.cluster.lines) + 2)

    def lines(self):
        """The lines of the state."""
        scenario, cluster = self.scenario, self.cluster
        for end in cluster.ends.values():
            for line in end_lines(scenario.pool, end):
                yield f"endpoint {end.id} {line}"
        if scenario.network == "packet":
            yield from self.packet_lines()
        for serial, line in self.accepted_in.items():
            if any(serial in messages_named(end) for end in cluster.ends.values()):
                yield f"message {serial_word(serial)} line {line}"

    def packet_lines(self):
        """What there is on the packet network alone."""
        scenario, cluster = self.scenario, self.cluster
        nodes = range(scenario.nodes)
        for node in nodes:
            yield from self.store_lines(node)
        for node in nodes:
            for peer in nodes:
                for number in range(scenario.channels):
                    yield from channel_lines(cluster, node, peer, number)
        for node in nodes:
            for peer in nodes:
                sent = len(cluster.sent.get((node, peer), []))
                if sent:
                    received = self.received.get((node, peer), [])
                    yield f"link {node} to {peer} sent {sent} received {len(received)}"
                    left = self.unreceived((node, peer), received)
                    if left:
                        yield " ".join(["link", str(node), "to", str(peer), "unreceived", *map(str, left)])
        for thread in sorted(self.calls):
            yield self.thread_line(thread)

    def store_lines(self, node):
        """The frames of a node that are held, and the images on its disk."""
        own = [end for end in self.cluster.ends.values() if end.node == node]
        for frame in range(self.scenario.frames):
            for end in own:
                if end.place == frame:
                    yield f"node {node} frame {frame} holds {end.id}"
        for end in own:
            if end.id in self.written:
                yield f"node {node} disk holds {end.id}" + ("" if end.place == "disk" else " old")

    def unreceived(self, link, received):
        """The packets of a link that the plan released and that were not received, in the order in which they were released."""
        released, late = [], []
        for number in range(1, len(self.cluster.sent[link]) + 1):
            fault, by = self.scenario.plan.get((*link, number), ("", 0))
            released += [number] * {"lose": 0, "late": 0, "repeat": 2}.get(fault, 1)
            released += [earlier for earlier, due in late if due == number]
            if fault == "late":
                late.append((number, number + by))
        for number in received:
            if number in released:
                released.remove(number)
        return released

    def thread_line(self, thread):
        left = self.calls[thread][self.made[thread]:]
        return f"thread {thread} next t{thread} {' '.join(as_printed(left[0]))}" if left else f"thread {thread} done"

    def text(self):
        return "".join(f"{line}\n" for line in self.lines())


def as_printed(call):
    """A call's words as a journal prints them: numbers without zeros in front, and tags by their words."""
    out = [".".join(str(int(it)) for it in word.split(".")) if word[0].isdigit() else word for word in call]
    at = {"tag": 2, "map": 4}.get(call[0])
    return out if at is None else [*out[:at], tag_word(tag_of(out[at])), *out[at + 1:]]


def states_of(scenario, report):
    """The text of the state behind each entry, and that in front of all."""
    states = States(scenario, report)
    texts = [states.text()]
    for line in states.journal:
        states.make(line)
        texts.append(states.text())
    return texts


def difference(first, second):
    """How one text differs from another, line by line."""
    one, other = first.splitlines(), second.splitlines()
    gone = [f"- {line}\n" for line in one if line not in other]
    return "".join(gone + [f"+ {line}\n" for line in other if line not in one])


def changes(scenario, report):
    """What each entry of a report changes, under its line."""
    texts = states_of(scenario, report)
    return {line: difference(before, behind) for line, (before, behind) in enumerate(zip(texts, texts[1:]), 3)}


def asked_of(texts, draw, most):
    """What to ask for of a report with these states, and the right answers."""
    count = len(texts) - 1
    none = "no such lines: the journal has none\n" if count == 0 else f"no such lines: the journal has lines 3 to {count + 2}\n"
    behind = lambda line: texts[line - 2] if 3 <= line < count + 3 else None
    yield (), (0, texts[count])
    for line in (2, count + 3, 4294967295):
        yield (line,), (12, none)
    yield (2, 3), (12, none)
    lines = range(3, count + 3)
    for line in lines if len(lines) <= most else draw.sample(lines, most):
        yield (line,), (0, behind(line))
        other = draw.choice(lines)
        yield (line, other), (0, difference(behind(line), behind(other)))


def judge(program, scenario, report, most):
    """What is told wrongly of a right report, and how much was asked."""
    form, faults, asked = form_of(scenario), [], 0
    for lines, wanted in asked_of(states_of(scenario, report), random.Random(report), most):
        asked += 1
        found = told(program, "state", form, scenario + report, *(str(it) for it in lines))
        if found != wanted:
            faults.append(f"state {form} {lines}: {found}, not {wanted}")
    asked += 1
    wrong = scenario + report + "0\n"
    if told(program, "state", form, wrong) != answer(["check", form], wrong):
        faults.append(f"state {form} of a wrong report")
    return faults, asked


def examples():
    """The scenarios among the examples with their reports."""
    top = pathlib.Path(__file__).resolve().parent.parent / "examples"
    for scenario in sorted(top.glob("*.am2")):
        report = scenario.with_suffix(".out").read_text()
        if report.startswith("am2 report 1\n") and "segment" not in scenario.read_text():
            yield scenario.name, scenario.read_text(), report


def randoms(first, count):
    """The random step scripts and runs of these seeds that come to their end, with their reports."""
    for seed in range(first, first + count):
        for form, script in (("step", step_script), ("run", run_script)):
            text = script(seed)
            status, report = answer([form], text)
            if status == 0:
                yield f"{form} {seed}", text, report


def main(program, first=0, count=0):
    bad = total = 0
    for most, given in ((40, examples()), (3, randoms(int(first), int(count)))):
        for name, scenario, report in given:
            faults, asked = judge(program, scenario, report, most)
            total += asked
            bad += len(faults)
            for fault in faults:
                print(f"{name}: {fault}")
    print(f"state: {total} answers, {bad} wrong")
    return 1 if bad else 0


if __name__ == "__main__":
    if len(sys.argv) < 2:
        sys.exit(__doc__)
    sys.exit(main(*sys.argv[1:]))
