"""The answer to a scenario and a report behind it, as docs/MANUAL.md tells it under "Checked reports"."""
import re

from drain import Run
from faults import first_fault, lines_of, refused
from machine import LogFull, NotEnabled
from scenario import read, tag_of, tag_word

FIRST = "am2 report 1"
BYTE, FOUR, EIGHT = 255, (1 << 32) - 1, (1 << 64) - 1

# What may stand behind who acts, by its first word: a number up to a limit, a tag, a serial, or one of these words.
NUMBER, END = (lambda limit: ("number", limit)), ("number", BYTE)
CALLS = {
    "request": [[END, END, END, *[NUMBER(EIGHT)] * 4]],
    "poll": [[END]],
    "tag": [[END, ("tag",)]],
    "map": [[END, END, END, ("tag",), END]],
    "unmap": [[END, END]],
    "handler": [[END, END, ("word", "note")], [END, END, ("word", "echo"), END], [END, END, ("word", "add"), END]],
    "giveup": [[END, ("serial",)]],
    "close": [[END]],
    "event": [[END, ("word", "noevents")], [END, ("word", "notempty")]],
    "want": [[END]],
}
OTHERS = {
    "i": {"bind": [[END]], "expire": [[END, END]], "receive": [[END, NUMBER(FOUR)]]},
    "d": {"drain": [[END]], "unload": [[END]], "load": [[END, END]], "pageout": [[END]], "pagein": [[END]]},
    "t": CALLS,
    "x": {**CALLS, "carry": [[END]]},
}


class Stopped(Exception):
    """A line has a fault: its number, or none for a full log, and what is said."""


def is_number(word, limit):
    return re.fullmatch(r"0|[1-9]\d*", word) is not None and int(word) <= limit


def is_printed(word, form):
    """Whether a word is printed as such."""
    if form[0] == "number":
        return is_number(word, form[1])
    if form[0] == "tag":
        return word in ("none", "all") or (is_number(word, EIGHT - 1) and word != "0")
    if form[0] == "serial":
        parts = word.split(".")
        return len(parts) == 2 and is_number(parts[0], BYTE) and is_number(parts[1], FOUR)
    return word == form[1]


def event_of(line):
    """The words of the event that a journal line tells, or none where it is no journal line."""
    left, arrow, right = line.partition(" -> ")
    words = left.split(" ")
    actor = words[0]
    forms = OTHERS.get(actor[:1], {}).get(words[1] if len(words) > 1 else "", [])
    if arrow and not right or actor[:1] != "x" and not is_number(actor[1:], BYTE) or actor[:1] == "x" and actor != "x":
        return None
    fits = any(len(form) == len(words) - 2 and all(map(is_printed, words[2:], form)) for form in forms)
    return words if fits else None


def as_printed(words):
    """The words of a scenario's line as they are printed."""
    tags = {"tag": [2], "map": [4]}.get(words[0], [])
    plain = [str(int(it)) if it.isdigit() else it for it in words]
    plain = [".".join(str(int(part)) for part in it.split(".")) if words[0] == "giveup" and "." in it else it for it in plain]
    return [tag_word(tag_of(it)) if place in tags else it for place, it in enumerate(plain)]


class Steps:
    """A step script whose events come one by one."""

    def __init__(self, scenario):
        self.run = Run(scenario)
        self.cluster = self.run.cluster
        self.steps = [[words[0] if words[0] == "x" else words[0][0] + str(int(words[0][1:])), *as_printed(words[1:])] for _, words in scenario.steps]

    def may_come(self, words):
        place = len(self.cluster.lines)
        return place < len(self.steps) and self.steps[place] == words

    def is_early(self, words):
        return False

    def make(self, words):
        self.cluster.apply(words)

    def is_ended(self):
        return len(self.cluster.lines) == len(self.steps)


class Scripts:
    """A run whose events come one by one."""

    def __init__(self, scenario):
        self.scenario = scenario
        self.run = Run(scenario)
        self.cluster = self.run.cluster

    def may_come(self, words):
        actor, name, rest = words[0], words[1], words[2:]
        if actor == "x":
            return name == "poll" and int(rest[0]) in self.cluster.ends
        number = int(actor[1:])
        if actor[0] == "t":
            return self.may_call(number, name, words[1:])
        if number >= self.scenario.nodes:
            return False
        if name in ("expire", "receive"):
            return self.may_name(number, name, *(int(it) for it in rest))
        return int(rest[0]) in self.cluster.ends and (name != "load" or int(rest[1]) < self.scenario.frames)

    def may_call(self, thread, name, words):
        if thread not in self.scenario.threads or int(words[1]) not in self.cluster.ends:
            return False
        calls, made = self.run.calls[thread], self.run.made[thread]
        return name == "want" or (made < len(calls) and as_printed(calls[made]) == words)

    def may_name(self, node, name, peer, number):
        if peer >= self.scenario.nodes:
            return False
        if name == "expire":
            return number < self.scenario.channels
        done, released = self.run.received.get((peer, node), 0), self.run.released.get((peer, node), [])
        return done < len(released) and released[done].number == number

    def is_all_received(self):
        return all(self.run.received.get(link, 0) == len(released) for link, released in self.run.released.items())

    def is_early(self, words):
        """Whether the entry would be one that is left to the end, while something that was released is not received."""
        if words[1] == "expire":
            sender = self.cluster.sender(int(words[0][1:]), int(words[2]), int(words[3]))
            return sender.attempt + 2 >= self.scenario.tries and not self.is_all_received()
        if words[1] == "bind":
            front = self.cluster.ends[int(words[2])].front()
            return front is not None and front.bounces == self.scenario.bounces and not self.is_all_received()
        return False

    def make(self, words):
        if words[1] == "want":
            self.cluster.want(words[0], int(words[2]))
        elif words[0][0] == "t":
            self.cluster.call(words[0], words[1:])
            self.run.made[int(words[0][1:])] += 1
        else:
            self.cluster.apply(words)
        if words[1] == "receive":
            link = (int(words[2]), int(words[0][1:]))
            self.run.received[link] = self.run.received.get(link, 0) + 1

    def is_ended(self):
        ends, senders = self.cluster.ends.values(), self.cluster.senders.values()
        rests = not any(it.requests or it.replies or it.in_flight or it.is_pollable() for it in ends) and not any(it.message for it in senders)
        made = all(self.run.made[it] == len(self.run.calls[it]) for it in self.scenario.threads)
        return made and rests and self.is_all_received()


def pass_line(follower, number, line):
    """Makes the entry of a line, or is stopped."""
    words = event_of(line)
    if not words:
        raise Stopped(number, "form")
    if not follower.may_come(words):
        raise Stopped(number, "follows")
    early = follower.is_early(words)
    try:
        follower.make(words)
    except NotEnabled as why:
        raise Stopped(number, f"not-enabled {why}") from why
    except LogFull as part:
        raise Stopped(*((number, "follows") if early else (None, f"log full {part}"))) from part
    if early:
        raise Stopped(number, "follows")
    if follower.cluster.lines[-1] != line:
        raise Stopped(number, "outcome")


def check_report(follower, report):
    lines = lines_of(report)
    word = lines[1].removeprefix("entries ") if len(lines) > 1 else ""
    if word == "" or lines[1] == word or not is_number(word, EIGHT):
        raise Stopped(2, "form")
    count = int(word)
    for place in range(count):
        if place + 2 >= len(lines):
            raise Stopped(place + 3, "form")
        pass_line(follower, place + 3, lines[place + 2])
    if not follower.is_ended():
        raise Stopped(count + 3, "follows")
    wanted = follower.cluster.report()
    if report != "".join(line + "\n" for line in wanted):
        same = next((at for at, (one, other) in enumerate(zip(lines, wanted)) if one != other), min(len(lines), len(wanted)))
        raise Stopped(same if len(lines) == len(wanted) == same else same + 1, "tail")


def check(form, text):
    """The status and the lines for a text."""
    begins = re.search(rf"^{FIRST}$", text, re.M)
    front, report = (text[: begins.start()], text[begins.start() :]) if begins else (text, "")
    fault = first_fault(form, front)
    if fault:
        return refused(fault)
    if not begins:
        return 10, ["check line 1 form"]
    try:
        check_report((Steps if form == "step" else Scripts)(read(front)), report)
    except Stopped as stop:
        number, what = stop.args
        return (6, [what]) if number is None else (10, [f"check line {number} {what}"])
    return 0, ["check ok"]
