"""A scenario as its text says it. Only texts without a fault are read here."""
from dataclasses import dataclass, field

ALL = (1 << 64) - 1


def tag_of(word):
    return {"none": 0, "all": ALL}.get(word) if word in ("none", "all") else int(word)


def tag_word(tag):
    return {0: "none", ALL: "all"}.get(tag, str(tag))


@dataclass
class Declared:
    """An endpoint's line."""

    node: int
    tag: int
    disk: bool


@dataclass
class Scenario:
    version: int = 1
    network: str = "packet"
    nodes: int = 1
    frames: int = 16
    channels: int = 1
    tries: int = 4
    bounces: int = None
    pool: int = None
    keep: int = 64
    log: int = 65536
    turns: int = 0
    ends: dict = field(default_factory=dict)
    bundles: dict = field(default_factory=dict)
    threads: list = field(default_factory=list)
    plan: dict = field(default_factory=dict)
    faults: set = field(default_factory=set)
    # the calls of a run, in the order of their lines: (thread, words)
    script: list = field(default_factory=list)
    # the events of a step script: (line, words)
    steps: list = field(default_factory=list)


def read(text):
    made = Scenario()
    for number, line in enumerate(text.split("\n"), 1):
        words = line.split()
        if words and not words[0].startswith("#"):
            read_line(made, number, words)
    made.threads.sort()
    if made.bounces is None:
        made.bounces = made.tries - 1
    return made


def read_line(made, number, words):
    first, rest = words[0], words[1:]
    if first == "am2":
        made.version = int(rest[0])
        made.pool = 0 if made.version == 2 else None
    elif first == "network":
        made.network = rest[0]
    elif first in ("nodes", "frames", "channels", "tries", "bounces", "keep", "log", "turns", "pool"):
        setattr(made, first, int(rest[0]))
    elif first == "endpoint":
        made.ends[int(rest[0])] = Declared(int(rest[1]), tag_of(rest[2]), len(rest) > 3)
    elif first == "bundle":
        made.bundles[int(rest[0])] = (rest[1], [int(it) for it in rest[2:]])
    elif first == "thread":
        made.threads.append(int(rest[0]))
    elif first == "plan":
        late = int(rest[4]) if rest[3] == "late" else 0
        made.plan[tuple(int(it) for it in rest[:3])] = (rest[3], late)
    elif first == "swapfault":
        made.faults.add((int(rest[0]), int(rest[1])))
    elif first[0] == "t":
        made.script += [(int(first[1:]), call) for call in calls_of(made, rest)]
    else:
        made.steps.append((number, words))


def calls_of(made, words):
    """The calls of a script's line: one, or one for each member of a bundle."""
    if words[0] == "pollb":
        return [["poll", str(end)] for end in made.bundles[int(words[1])][1]]
    if words[0] == "eventb":
        mask, ends = made.bundles[int(words[1])]
        return [["event", str(end), mask] for end in ends]
    return [words]
