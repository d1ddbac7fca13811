"""Random scenarios for `run`, with and without turns, for `segments` and for `step`, random sessions, reports that were spoiled, and texts with a fault. A step script is made event by event beside the second reading, mostly of events that may happen."""
import copy
import random

from machine import Cluster, LogFull, NotEnabled
from scenario import read
from session import Session


def settings(draw, version, packet):
    lines = [f"nodes {draw.randint(1, 4)}"]
    for chance, name, least, most in ((0.7, "frames", 2, 4), (0.6, "channels", 1, 4), (0.7, "tries", 2, 5), (0.5, "bounces", 0, 4), (0.6, "keep", 0, 3), (0.2, "log", 1, 60)):
        if draw.random() < chance:
            lines.append(f"{name} {draw.randint(least, most)}")
    if version == 2 and draw.random() < 0.7:
        lines.append(f"pool {draw.randint(0, 20)}")
    return lines


def declarations(draw, nodes, packet):
    """The lines of endpoints, and each endpoint's node and tag."""
    ends = {}
    for id in draw.sample(range(40), draw.randint(1, 9)):
        ends[id] = (draw.randrange(nodes), draw.choice(["none", "all", *(str(draw.randint(1, 5)) for _ in range(6))]))
    disk = lambda: " disk" if packet and draw.random() < 0.3 else ""
    return [f"endpoint {id} {node} {tag}{disk()}" for id, (node, tag) in ends.items()], ends


def threads(draw, ends):
    homes = [node for node, _ in ends.values()]
    of = {}
    for thread in range(draw.randint(1, 5)):
        node = draw.choice(homes)
        if list(of.values()).count(node) < 4:
            of[thread] = node
    return of


def faults(draw, nodes):
    plan, pages = {}, set()
    for _ in range(draw.choice([0, 0, 5, 20, 60])):
        place = (draw.randrange(nodes), draw.randrange(nodes), draw.randint(1, 40))
        plan.setdefault(place, draw.choice(["lose", "repeat", f"late {draw.randint(1, 16)}"]))
    for _ in range(draw.choice([0, 0, 3, 8])):
        pages.add((draw.randrange(nodes), draw.randint(1, 12)))
    return ["plan {} {} {} ".format(*place) + fault for place, fault in plan.items()], ["swapfault {} {}".format(*it) for it in sorted(pages)]


def call(draw, end, ends, version):
    """A call on an endpoint."""
    index, handler, odds = draw.choice([0, 0, 1, 2, 15, 16]), draw.choice([0, 1, 1, 2, 2, 3, 15, 16]), draw.random()
    if odds < 0.18:
        to = draw.choice(list(ends))
        tag = ends[to][1] if draw.random() < 0.8 else str(draw.randint(1, 5))
        return f"map {end} {index} {to} {tag} {draw.randint(1 if version == 1 else 0, 8)}"
    if odds < 0.36:
        return f"handler {end} {handler} " + draw.choice(["note", f"echo {draw.randint(1, 4)}", f"add {draw.randint(1, 4)}"])
    if odds < 0.70:
        return f"request {end} {index} {handler} {draw.randint(0, 99)} 1 2 3"
    if odds < 0.88:
        return f"poll {end}"
    if odds < 0.90:
        return f"tag {end} " + draw.choice(["none", "all", "3"])
    if odds < 0.92:
        return f"unmap {end} {index}"
    if odds < 0.94:
        return f"giveup {end} {end}.{draw.randint(1, 5)}"
    return f"close {end}" if odds < 0.95 else f"event {end} notempty"


def run_script(seed):
    draw = random.Random(seed)
    version = draw.choice([1, 1, 1, 2])
    head = settings(draw, version, True)
    nodes = int(head[0].split()[1])
    lines, ends = declarations(draw, nodes, True)
    of = threads(draw, ends)
    members = [id for id, (node, _) in ends.items() if node == list(of.values())[0]]
    bundle = [f"bundle 0 {draw.choice(['notempty', 'noevents'])} " + " ".join(map(str, members))]
    plan, pages = faults(draw, nodes)
    text = [f"am2 {version}", "network packet", *head, *lines, *bundle, *(f"thread {it} {node}" for it, node in of.items()), *plan, *pages]
    for _ in range(draw.randint(0, 60)):
        thread = draw.choice(list(of))
        own = [id for id, (node, _) in ends.items() if node == of[thread]]
        if of[thread] == list(of.values())[0] and draw.random() < 0.03:
            text.append(f"t{thread} {draw.choice(['pollb', 'eventb'])} 0")
        else:
            text.append(f"t{thread} {call(draw, draw.choice(own), ends, version)}")
    return "\n".join(text) + "\n"


def wide_settings(draw, version):
    """Up to 16 nodes, and turns; one scenario in eight has a log that may get full."""
    lines = [f"nodes {draw.choice([1, 2, 2, 3, 4, 4, 8, 16])}", f"turns {draw.choice([1, 3, 10, 30, 100, 300, 1000, 3000, 10000])}"]
    for chance, name, values in (
        (0.8, "frames", (2, 2, 3, 4, 8, 16)),
        (0.7, "channels", (1, 2, 3, 4)),
        (0.7, "tries", (2, 3, 4, 8, 16)),
        (0.5, "bounces", (0, 1, 3, 8, 16)),
        (0.7, "keep", (0, 1, 2, 4, 16, 64)),
        (0.12, "log", (3, 20, 60, 200)),
    ):
        if draw.random() < chance:
            lines.append(f"{name} {draw.choice(values)}")
    if version == 2 and draw.random() < 0.7:
        lines.append(f"pool {draw.randint(0, 20)}")
    return lines


def crowd(draw, nodes, most):
    """Endpoints on all nodes, at most 64 on each, mostly with the tag that others map them with."""
    ends = {id: (id % nodes, draw.choice(["all", "3", "3", "3", "5", "none"])) for id in range(min(most, 64 * nodes))}
    return [f"endpoint {id} {node} {tag}" + (" disk" if draw.random() < 0.2 else "") for id, (node, tag) in ends.items()], ends


def many_faults(draw, nodes):
    plan = {}
    for _ in range(draw.choice([0, 0, 10, 100, 1000])):
        place = (draw.randrange(nodes), draw.randrange(nodes), draw.randint(1, 200))
        plan.setdefault(place, draw.choice(["lose", "repeat", f"late {draw.randint(1, 16)}"]))
    pages = {(draw.randrange(nodes), draw.randint(1, 30)) for _ in range(draw.choice([0, 0, 5, 40]))}
    return ["plan {} {} {} ".format(*place) + fault for place, fault in plan.items()], ["swapfault {} {}".format(*it) for it in sorted(pages)]


def opened(end, ends, draw):
    """The calls that make an endpoint ready to send and to be sent to."""
    near = [to for to in range(end + 1, end + 4) if to in ends] or [end]
    calls = [f"handler {end} {handler} {draw.choice(['note', 'echo 1', 'add 1'])}" for handler in (1, 2)]
    return calls + [f"map {end} {index} {to} {ends[to][1]} {draw.randint(1, 8)}" for index, to in ((0, draw.choice(near)), (1, draw.choice(list(ends))))]


def threaded_script(seed):
    """A scenario whose threads, interfaces and drivers have turns: 1 to 16 nodes, up to 256 endpoints and 64 threads."""
    draw = random.Random(f"threaded {seed}")
    version = draw.choice([1, 1, 1, 2])
    head = wide_settings(draw, version)
    nodes = int(head[0].split()[1])
    lines, ends = crowd(draw, nodes, draw.choice([1, 2, 4, 4, 8, 8, 16, 16, 32, 64, 256]))
    of = {thread: thread % nodes for thread in range(draw.randint(1, 4 * nodes)) if thread % nodes < len(ends)}
    plan, pages = many_faults(draw, nodes)
    text = [f"am2 {version}", "network packet", *head, *lines, *(f"thread {it} {node}" for it, node in of.items()), *plan, *pages]
    own = {thread: [id for id, (home, _) in ends.items() if home == node] for thread, node in of.items()}
    ready = {thread: ends_of[:4] for thread, ends_of in own.items()}
    text += [f"t{thread} {call_}" for thread, some in ready.items() for end in some for call_ in opened(end, ends, draw)]
    for _ in range(draw.choice([0, 10, 40, 40, 100, 100, 400, 1500])):
        thread = draw.choice(list(of))
        text.append(f"t{thread} {call(draw, draw.choice(ready[thread] if draw.random() < 0.8 else own[thread]), ends, version)}")
    return "\n".join(text) + "\n"


def event(draw, scenario, ends, packet):
    """An event of the machine, which may happen or not."""
    end = draw.choice(list(ends))
    node, peer = draw.randrange(scenario.nodes), draw.randrange(scenario.nodes)
    odds = draw.random()
    if not packet:
        return f"x carry {end}" if odds < 0.4 else "x " + call(draw, end, ends, scenario.version)
    if odds < 0.35:
        return "x " + call(draw, end, ends, scenario.version)
    if odds < 0.55:
        return f"i{node} receive {peer} {draw.randint(1, 8)}"
    if odds < 0.70:
        return f"i{ends[end][0]} bind {end}"
    if odds < 0.78:
        return f"i{node} expire {peer} {draw.randrange(scenario.channels)}"
    home = ends[end][0] if draw.random() < 0.95 else node
    moves = [f"load {end} {draw.randrange(scenario.frames)}"] * 3 + [f"drain {end}", f"unload {end}", f"pageout {end}", f"pagein {end}"]
    return f"x want {end}" if odds < 0.80 else f"d{home} {draw.choice(moves)}"


def step_script(seed):
    draw = random.Random(seed)
    version, packet = draw.choice([1, 1, 2]), draw.random() < 0.7
    head = settings(draw, version, packet)
    lines, ends = declarations(draw, int(head[0].split()[1]), packet)
    pages = faults(draw, int(head[0].split()[1]))[1] if packet else []
    text = [f"am2 {version}", "network " + ("packet" if packet else "direct"), *head, *lines, *pages]
    scenario = read("\n".join(text))
    cluster = Cluster(scenario)
    for _ in range(draw.randint(0, 250)):
        line = event(draw, scenario, ends, packet)
        tried = copy.deepcopy(cluster) if draw.random() > 0.002 else None
        try:
            cluster.apply(line.split())
        except (NotEnabled, LogFull):
            if tried:
                cluster = tried
                continue
        text.append(line)
    return "\n".join(text) + "\n"


def block_call(draw, thread, own, ends, blocks):
    """A line of a thread that sends a block, serves, or makes an ordinary call."""
    end, odds = draw.choice(own), draw.random()
    if odds < 0.2:
        return f"t{thread} handler {end} {draw.randint(1, 3)} " + draw.choice(["note", "echo 1", "add 2"])
    if odds < 0.45:
        to = draw.choice(list(ends))
        return f"t{thread} map {end} {draw.randint(0, 2)} {to} {ends[to][1]} {draw.randint(1, 8)}"
    if odds < 0.6:
        return f"t{thread} serve {end} {draw.randint(1, 20)}"
    to = draw.choice(list(blocks))
    count = draw.randint(1, min(blocks[to], 512))
    return f"t{thread} xfer {end} {draw.randint(0, 2)} {to} {draw.randint(0, blocks[to] - count)} {draw.randbytes(count).hex()}"


def segments_script(seed):
    """A scenario for `segments`: blocks of 1 to 512 bytes between at most five endpoints."""
    draw = random.Random(f"segments {seed}")
    nodes = draw.randint(1, 3)
    ends = {id: (draw.randrange(nodes), draw.randint(1, 4)) for id in range(draw.randint(2, 5))}
    of = {thread: ends[id][0] for thread, id in enumerate(draw.sample(list(ends), draw.randint(1, 2)))}
    blocks = {id: draw.choice([1, 8, 40, 100, 3000]) for id in draw.sample(list(ends), draw.randint(1, len(ends)))}
    plan, pages = faults(draw, nodes)
    text = ["am2 1", "network packet", f"nodes {nodes}", f"frames {draw.randint(2, 4)}", f"keep {draw.randint(0, 2)}"]
    text += [f"log {draw.randint(1, 60)}"] if draw.random() < 0.1 else []
    text += [*(f"endpoint {id} {node} {tag}" for id, (node, tag) in ends.items()), *(f"thread {it} {node}" for it, node in of.items()), *plan, *pages]
    text += [f"segment {id} {draw.randint(1, 3)} {size}" for id, size in blocks.items()]
    own = {thread: [id for id, (home, _) in ends.items() if home == node] for thread, node in of.items()}
    for _ in range(draw.randint(3, 40)):
        thread = draw.choice(list(of))
        text.append(block_call(draw, thread, own[thread], ends, blocks))
    return "\n".join(text) + "\n"


def session_event(draw, session):
    odds = draw.random()
    for chance, event in ((0.12, "a offer"), (0.20, "a hello"), (0.36, "a bind"), (0.46, "a expire"), (0.49, "a restart"), (0.52, "b restart")):
        if odds < chance:
            return event
    if odds < 0.75:
        return f"a receive {draw.randint(1, len(session.b.packets) + 1)}"
    return f"b receive {draw.randint(1, len(session.a.packets) + 1)} {draw.choice(['accept', 'accept', 'full', 'bad'])}"


def session_script(seed):
    """A session, mostly of events that may happen."""
    draw = random.Random(f"session {seed}")
    tries = draw.randint(2, 5)
    text, session = ["am2session 1", f"tries {tries}"], Session(tries)
    for _ in range(draw.randint(0, 200)):
        line = session_event(draw, session)
        try:
            session.apply(line.split())
        except NotEnabled:
            if draw.random() > 0.01:
                continue
        text.append(line)
    return "\n".join(text) + "\n"


SPOILING_WORDS = ["ok", "x", "t0", "i0", "d0", "->", "nothing", "ran", "poll", "none", "all", "", "sent", "4294967296", "18446744073709551615", "18446744073709551616"]


def spoiled_line(draw, line):
    """A line with another word, or with something else behind its event."""
    if draw.random() < 0.2:
        return line.split(" -> ")[0] + draw.choice(["", " -> ", " -> x", " ->", "  -> ok"])
    words = line.split(" ")
    place = draw.randrange(len(words))
    number = int(words[place]) if words[place].isdigit() else 0
    words[place] = draw.choice([str(number + 1), str(max(0, number - 1)), f"0{number}", "256", *SPOILING_WORDS])
    return " ".join(words)


def spoiled(draw, report):
    """A report in which something was changed behind its first line, or nothing."""
    lines = report.split("\n")
    count = int(lines[1].split()[1])
    place = draw.randrange(1, count + 2 if draw.random() < 0.8 else len(lines) - 1)
    odds = draw.random()
    if odds < 0.15:
        return report
    if odds < 0.25:
        return report[: draw.randrange(len(lines[0]), len(report))]
    if odds < 0.35:
        del lines[place]
    elif odds < 0.45:
        lines[place:place] = [draw.choice(lines[1:])]
    elif odds < 0.6:
        lines[place], lines[place + 1] = lines[place + 1], lines[place]
    elif odds < 0.7:
        lines[1] = f"entries {draw.choice([count + 1, max(0, count - 1), 0])}"
    else:
        lines[place] = spoiled_line(draw, lines[place])
    return "\n".join(lines)


def with_log(draw, text):
    """The scenario, which may get a line that bounds its logs."""
    if draw.random() > 0.2 or "\nlog " in text:
        return text
    return text.replace("\nendpoint ", f"\nlog {draw.randint(1, 40)}\nendpoint ", 1)


FAULTY_WORDS = """x t0 t9 i0 d9 i t x5 a b am2 am2session network direct packet nodes frames tries pool keep log bundle thread endpoint plan swapfault lose late disk none all note echo add poll request
pollb eventb carry want event giveup close handler map load bind expire receive restart accept notempty noevents segment xfer serve 0 1 2 7 8 15 16 17 40 63 64 255 256 1024 1025 65536 65537 4294967295 4294967296
18446744073709551615 18446744073709551616 00 007 -1 1.5 0.1 256.1 0.4294967296 1. # a0 0f0F 0f0 0f""".split() + ["# x", "\t", "\x7f", "\xe9", "disk 1"]


def faulty_line(draw, line):
    """A line with a word that is another, more or less."""
    words = line.split(" ")
    place, odds = draw.randrange(len(words)), draw.random()
    if odds < 0.6:
        words[place] = draw.choice(FAULTY_WORDS)
    elif odds < 0.8:
        words.insert(place + draw.randint(0, 1), draw.choice(FAULTY_WORDS))
    else:
        del words[place]
    return " ".join(words)


def faulty(draw, text):
    """A text in which one line or two were changed, which mostly has a fault now."""
    lines = text.split("\n")
    for _ in range(draw.choice([1, 1, 1, 2])):
        place, other, odds = draw.randrange(len(lines)), draw.randrange(len(lines)), draw.random()
        if odds < 0.12 and len(lines) > 1:
            del lines[place]
        elif odds < 0.27:
            lines.insert(place, lines[other])
        elif odds < 0.4:
            lines[place], lines[other] = lines[other], lines[place]
        else:
            lines[place] = faulty_line(draw, lines[place])
    return "\n".join(lines)
