"""The first fault of a scenario's or a session's text, as docs/MANUAL.md tells it under "The scenario", "Faults" and "Interfaces that restart"."""
import re

NUMBERS = {"nodes": (1, 16), "frames": (2, 16), "channels": (1, 4), "tries": (2, 16), "bounces": (0, 16), "pool": (0, 32), "keep": (0, 64), "log": (1, 65536), "turns": (0, 10000)}
DECLARED = ("endpoint", "bundle", "thread", "plan", "swapfault")
EVENTS = {"i": ("bind", "expire", "receive"), "d": ("drain", "unload", "load", "pageout", "pagein")}
FOUR, EIGHT = (1 << 32) - 1, (1 << 64) - 1


class Fault(Exception):
    """The cause of a line's first fault."""


def number_in(word):
    return int(word) if re.fullmatch(r"[0-9]+", word) and int(word) <= EIGHT else None


def lines_of(text):
    lines = text.split("\n")
    return lines[:-1] if lines[-1] == "" else lines


def words_of(text):
    """The words of a line, or none where it says nothing."""
    if not all(" " <= it <= "~" for it in text):
        raise Fault("not-text")
    words = [it for it in text.split(" ") if it]
    return [] if not words or words[0][0] == "#" else words


class Words:
    """The words behind a line's first, taken from the left."""

    def __init__(self, words):
        self.left = list(words)

    def word(self):
        if not self.left:
            raise Fault("missing")
        return self.left.pop(0)

    def keyword(self, *known):
        word = self.word()
        if word not in known:
            raise Fault("unknown-word")
        return word

    def number(self, least=0, most=EIGHT):
        number = number_in(self.word())
        if number is None:
            raise Fault("bad-number")
        if not least <= number <= most:
            raise Fault("out-of-range")
        return number

    def tag(self):
        word = self.word()
        if word not in ("none", "all") and number_in(word) is None:
            raise Fault("bad-number")

    def serial(self):
        parts = [number_in(part) for part in self.word().split(".")]
        if len(parts) != 2 or None in parts or parts[0] > 255 or parts[1] > FOUR:
            raise Fault("bad-number")

    def declared(self, known, node=None):
        """The number of an endpoint or a bundle, which is declared, and of this node if one is wanted."""
        number = self.number()
        if number not in known:
            raise Fault("undeclared")
        if node is not None and known[number] != node:
            raise Fault("out-of-range")
        return number

    def end(self):
        if self.left:
            raise Fault("unknown-word")


class Reader:
    """What the lines so far have said."""

    def __init__(self, form):
        self.form, self.section, self.version = form, 0, None
        self.settings = {}
        # endpoints and threads with their nodes, bundles with their node and with their members
        self.ends, self.threads, self.bundles, self.members = {}, {}, {}, {}
        self.plan, self.pages = set(), set()
        self.calls = self.steps = 0

    def section_of(self, first):
        if first == "am2":
            return 1
        if first == "network" or first in NUMBERS and (first != "pool" or self.version == 2):
            return 2
        if first in DECLARED:
            return 3
        if first == "x" or first[0] in "tid" and number_in(first[1:]) is not None:
            return 4
        raise Fault("unknown-word")

    def line(self, text):
        words = words_of(text)
        if not words:
            return
        first, section = words[0], self.section_of(words[0])
        if section > 1 and self.section == 0:
            raise Fault("missing")
        if section < self.section or first == "plan" and self.form == "step" or section == 4 and (first[0] == "t") != (self.form == "run"):
            raise Fault("out-of-place")
        if section > 2 and not {"network", "nodes"} <= set(self.settings):
            raise Fault("missing")
        getattr(self, ("version_line", "setting_line", "declaration", "script_line" if self.form == "run" else "step_line")[section - 1])(first, Words(words[1:]))
        self.section = section

    def version_line(self, _, words):
        version = words.number(1, 2)
        words.end()
        if self.version:
            raise Fault("twice")
        self.version = version

    def setting_line(self, name, words):
        if name == "network":
            said = words.keyword("direct", "packet")
            if said == "direct" and self.form == "run":
                raise Fault("out-of-range")
        else:
            said = words.number(*NUMBERS[name])
        words.end()
        if name in self.settings:
            raise Fault("twice")
        self.settings[name] = said

    def node(self, words):
        return words.number(0, self.settings["nodes"] - 1)

    def declaration(self, kind, words):
        getattr(self, f"declare_{kind}")(words)

    def declare_endpoint(self, words):
        id, node = words.number(0, 255), self.node(words)
        words.tag()
        if words.left:
            words.keyword("disk")
            if self.settings["network"] == "direct":
                raise Fault("out-of-range")
        self.place(self.ends, id, node, words, 64)

    def declare_thread(self, words):
        self.place(self.threads, words.number(0, 63), self.node(words), words, 4)

    def place(self, known, id, node, words, most):
        words.end()
        if id in known:
            raise Fault("twice")
        if list(known.values()).count(node) == most:
            raise Fault("too-many")
        known[id] = node

    def declare_bundle(self, words):
        id = words.number(0, 63)
        words.keyword("noevents", "notempty")
        members = [words.declared(self.ends)]
        node = self.ends[members[0]]
        while words.left:
            members.append(words.declared(self.ends, node))
        if id in self.bundles or len(set(members)) < len(members):
            raise Fault("twice")
        self.bundles[id], self.members[id] = node, len(members)

    def declare_plan(self, words):
        place = self.node(words), self.node(words), words.number(1, 65536)
        if words.keyword("lose", "repeat", "late") == "late":
            words.number(1, 16)
        self.note(self.plan, place, words, 4096)

    def declare_swapfault(self, words):
        self.note(self.pages, (self.node(words), words.number(1, 65536)), words, 64)

    def note(self, known, place, words, most):
        words.end()
        if place in known:
            raise Fault("twice")
        if len(known) == most:
            raise Fault("too-many")
        known.add(place)

    def script_line(self, first, words):
        thread = int(first[1:])
        if thread not in self.threads:
            raise Fault("undeclared")
        verb, node, count = words.word(), self.threads[thread], 1
        if verb in ("pollb", "eventb"):
            count = self.members[words.declared(self.bundles, node)]
        else:
            self.call(verb, words, node)
        words.end()
        self.calls += count
        if self.calls > 16384:
            raise Fault("too-many")

    def step_line(self, first, words):
        if first != "x" and int(first[1:]) >= self.settings["nodes"]:
            raise Fault("out-of-range")
        if first == "x":
            verb = words.word()
            if verb in ("carry", "want"):
                words.declared(self.ends)
            else:
                self.call(verb, words)
        else:
            self.event(words.keyword(*EVENTS[first[0]]), words)
        words.end()
        self.steps += 1
        if self.steps > 65536:
            raise Fault("too-many")

    def event(self, verb, words):
        if verb in ("expire", "receive"):
            self.node(words)
            words.number(*((0, self.settings.get("channels", 1) - 1) if verb == "expire" else (1, FOUR)))
            return
        words.declared(self.ends)
        if verb == "load":
            words.number(0, self.settings.get("frames", 16) - 1)

    def call(self, verb, words, node=None):
        if verb not in ("request", "poll", "tag", "map", "unmap", "handler", "giveup", "close", "event"):
            raise Fault("unknown-word")
        words.declared(self.ends, node)
        if verb in ("request", "map", "unmap", "handler"):
            words.number(0, 255)
        if verb == "request":
            for most in (255, EIGHT, EIGHT, EIGHT, EIGHT):
                words.number(0, most)
        elif verb == "map":
            words.declared(self.ends)
            words.tag()
            words.number(0 if self.version == 2 else 1, 8)
        elif verb == "handler" and words.keyword("note", "echo", "add") != "note":
            words.number(1, 15)
        elif verb == "tag":
            words.tag()
        elif verb == "giveup":
            words.serial()
        elif verb == "event":
            words.keyword("noevents", "notempty")


    def is_whole(self):
        return self.section > 0 and {"network", "nodes"} <= set(self.settings)


class SessionReader:
    """What the lines of a session have said so far."""

    SECTIONS = {"am2session": 1, "tries": 2, "a": 3, "b": 3}

    def __init__(self):
        self.section, self.tries, self.events = 0, False, 0

    def line(self, text):
        words = words_of(text)
        if not words:
            return
        section = self.SECTIONS.get(words[0])
        if section is None:
            raise Fault("unknown-word")
        if section > 1 and self.section == 0:
            raise Fault("missing")
        if section < self.section:
            raise Fault("out-of-place")
        if section == 3 and not self.tries:
            raise Fault("missing")
        self.said(section, words[0], Words(words[1:]))
        self.section = section

    def said(self, section, first, words):
        if section < 3:
            words.number(*((1, 1), (2, 16))[section - 1])
        elif words.keyword(*(("offer", "hello", "bind", "expire", "receive", "restart") if first == "a" else ("receive", "restart"))) == "receive":
            words.number(1, FOUR)
            if first == "b":
                words.keyword("accept", "full", "bad")
        words.end()
        if section < 3 and section == self.section:
            raise Fault("twice")
        self.tries = self.tries or section == 2
        self.events += section == 3
        if self.events > 65536:
            raise Fault("too-many")

    def is_whole(self):
        return self.tries


def fault_for(reader, text):
    """The line and the cause of the first fault that a reader finds, or none."""
    lines = lines_of(text)
    for number, line in enumerate(lines, 1):
        try:
            reader.line(line)
        except Fault as why:
            return number, str(why)
    return None if reader.is_whole() else (len(lines) + 1, "missing")


def first_fault(form, text):
    """The line and the cause of the first fault of a scenario of this form, or none."""
    return fault_for(Reader(form), text)


def refused(fault):
    """The status and the lines for a text with a fault."""
    return 3, ["refused line {} {}".format(*fault)]
