#!/usr/bin/env python3
"""replay.py SCENARIO REPORT: a run's report against the second reading of the rules. Prints what is wrong, or how many of its entries the workers made.

Which of the possible journals a run with turns prints nobody can foretell. But made again entry by entry, each must have the outcome that the rules give it; packets must be
received as their link released them; threads must make the calls of their scripts in order; and behind some place the journal must be just what the drain makes of what stands
before. Before that place no worker may have made more entries than it has turns, nor one that belongs to the drain alone.
"""
import sys

from drain import Run
from machine import LogFull, NotEnabled
from scenario import read


class Differs(Exception):
    """The entry that the rules give here is another one."""


class Replay(Run):
    """A run whose entries are given."""

    def __init__(self, scenario, journal):
        super().__init__(scenario)
        self.journal = journal
        self.cluster.enter = self.enter

    def enter(self, line, ends, node=None):
        place = len(self.cluster.lines)
        if place == len(self.journal) or self.journal[place] != line:
            given = self.journal[place] if place < len(self.journal) else "no more"
            raise Differs(f"entry {place + 1} is '{given}', and the rules give '{line}'")
        type(self.cluster).enter(self.cluster, line, ends, node)

    def take(self, count):
        """Makes the next entries as they are given."""
        for line in self.journal[len(self.cluster.lines) :][:count]:
            try:
                self.apply(line.split(" -> ")[0].split())
            except (NotEnabled, LogFull, LookupError, TypeError, StopIteration) as why:
                raise Differs(f"entry {len(self.cluster.lines) + 1} '{line}' can't be made: {why!r}") from why

    def apply(self, words):
        if words[1] == "receive":
            self.receive_given(*(int(it) for it in (words[0][1:], *words[2:])))
        elif words[1] == "want":
            self.cluster.want(words[0], int(words[2]))
        elif words[0][0] == "t":
            self.call_given(int(words[0][1:]), words[1:])
        else:
            self.cluster.apply(words)

    def receive_given(self, node, peer, number):
        link = (peer, node)
        done, released = self.received.get(link, 0), self.released.get(link, [])
        if done == len(released) or released[done].number != number:
            raise Differs(f"entry {len(self.cluster.lines) + 1} receives packet {number} from node {peer}, which is not the next that was released")
        self.cluster.receive(node, peer, number)
        self.received[link] = done + 1

    def call_given(self, thread, words):
        made = self.made.get(thread, 0)
        calls = self.calls.get(thread, [])
        if made == len(calls) or calls[made][:2] != words[:2]:
            raise Differs(f"entry {len(self.cluster.lines) + 1} is not the next call of thread {thread}")
        self.cluster.call(f"t{thread}", calls[made])
        self.made[thread] = made + 1


def is_drains_own(replay, words):
    """Whether this entry may be made by the drain alone: another's poll, the last try of a binding, a binding after the last bounce."""
    cluster, scenario = replay.cluster, replay.scenario
    if words[1] == "expire":
        sender = cluster.sender(int(words[0][1:]), int(words[2]), int(words[3]))
        return sender.attempt + 2 >= scenario.tries
    if words[1] == "bind":
        front = cluster.ends[int(words[2])].front()
        return front is not None and front.bounces >= scenario.bounces
    return words[0] == "x"


def longest_phase(scenario, journal):
    """How many of the first entries the workers may have made at most, and the whole journal made again."""
    replay, made, longest = Replay(scenario, journal), {}, None
    for place, line in enumerate(journal):
        words = line.split()
        made[words[0]] = made.get(words[0], 0) + 1
        if longest is None and (made[words[0]] > scenario.turns or is_drains_own(replay, words)):
            longest = place
        replay.take(1)
    return len(journal) if longest is None else longest, replay


def drains(scenario, journal, place, full):
    """Whether the drain makes of the first entries just the others, and then is done, or meets this full log."""
    replay = Replay(scenario, journal)
    replay.take(place)
    try:
        replay.finish()
    except Differs:
        return False
    except LogFull as part:
        return str(part) == full and len(replay.cluster.lines) == len(journal)
    return full is None and len(replay.cluster.lines) == len(journal)


def made_again(scenario, report, full=None):
    """What is wrong with a report, and how many entries its longest phase has. `full` names the full log that a run told which was cut off."""
    lines = report.split("\n")[:-1]
    journal = lines[2 : 2 + int(lines[1].split()[1])]
    try:
        longest, replay = longest_phase(scenario, journal)
    except Differs as why:
        return [str(why)], 0
    found = [] if replay.cluster.report() == lines else ["the report is not that of its journal"]
    for place in range(longest, -1, -1):
        if drains(scenario, journal, place, full):
            return found, place
    return [*found, f"no phase of at most {longest} entries is followed by its drain"], 0


if __name__ == "__main__":
    with open(sys.argv[1], encoding="ascii") as given, open(sys.argv[2], encoding="ascii") as printed:
        wrong, phase = made_again(read(given.read()), printed.read())
    print("\n".join(wrong) or phase)
    sys.exit(1 if wrong else 0)
