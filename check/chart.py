#!/usr/bin/env python3
"""What `am2_lab chart` draws, against a second reading of the report's text: chart.py PROGRAM [SCENARIO REPORT]..

For each pair of files, or for each of examples/ without any, the whole picture is drawn and read by Python's own XML parser. The titles of its rows
are to be the journal's lines; there is to be an arrow from the row that sends a packet to each row that receives it, and a cross in the row of each
packet that is never received; and arrows, crosses and signs have the colour of the message's fate, the dashes of its kind, and are pale where nothing
comes of them. The bars are to be those of a second machine that makes the entries again. Heads, bars, arrows and crosses have the titles that they are
to have, and the legend has each sign that occurs, once. Pictures with rows of text alone are read, those of at most 400 entries. Of each report the
picture of one message more is read, another message in each: just the lines that name it or give it up are to be its rows, with what the picture of
the whole journal has at them.
"""
import pathlib
import re
import subprocess
import sys
import xml.etree.ElementTree as tree
from itertools import groupby

from scenario import tag_word
from state import States

TOP, PITCH, PAGE = 190, 18, 50
BARS = "frame draining host disk direct records received".split()
# the legend, line by line: the sign, its class, its dashes, and what it stands for
LEGEND = [
    *((f"#fate-{it}", it, "none", it) for it in ("ran", "returned", "unknown")),
    ("#fate-unknown-but-ran", "unknown-but-ran", "none", "unknown, but ran"), ("#fate-pending", "pending", "none", "pending"),
    ("#no-fate", "plain", "none", "no message, or none that was accepted"),
    *(("#box", it, "none", text) for it, text in zip(BARS, (
        "in a frame (its number)", "draining", "on the host", "on disk", "on the direct network", "records of requests that are out",
        "received and not polled"))),
    *((f"#{it}", "plain", "none", text) for it, text in (
        ("request", "request"), ("run", "run (its handler)"), ("notice", "notice"), ("refused", "refused call"), ("blocked", "no room for a reply"),
        ("given-up", "given up"), ("closed", "closed"), ("done", "done"), ("nothing", "nothing came of it"), ("moved", "moved"),
        ("failed", "device failed"), ("time-out", "time-out"), ("wanted", "wanted"))),
    *(("#way", "plain", dashes, text) for dashes, text in (("none", "request"), ("9 3", "reply"), ("2 3", "answer"))),
    *((f"#{it}", "plain", "none", text) for it, text in (
        ("lost-left", "never received"), ("stopped", "refused there"), ("settled", "accepted there"), ("requeued", "put back"),
        ("came-back", "returned"), ("timed-out", "unknown"))),
]
SVG = "{http://www.w3.org/2000/svg}"
SERIAL = re.compile(r"\d+\.\d+$")


def drawn(program, form, text, *words):
    """The picture of a scenario and its report, by these words behind the form."""
    done = subprocess.run([program, "chart", form, *words], input=text, capture_output=True, text=True, check=False)
    if done.returncode:
        raise SystemExit(f"chart {form} {' '.join(words)} ended with {done.returncode}")
    return tree.fromstring(done.stdout)


def form_of(scenario):
    """The form of a scenario: a run has threads or says how many turns they make."""
    words = [line.split() for line in scenario.splitlines() if line.strip()]
    return "run" if any(it[0] in ("thread", "turns", "make") for it in words) else "step"


def lines_of(report):
    """The journal's lines of a report, and the fate of each serial."""
    lines = report.splitlines()
    count = int(lines[1].split()[1])
    fates = {}
    for words in map(str.split, lines[2 + count:]):
        if words and words[0] == "fate":
            fates[words[1]] = words[3]
    return lines[2:2 + count], fates


def about(event, outcome):
    """The serial that an entry is about."""
    if event[1] == "giveup" and outcome == ["ok"]:
        return event[3]
    return next((word for word in outcome if SERIAL.match(word)), None)


class Journal:
    """What the journal's lines say of packets: who sent each, in which row, and which rows receive it."""

    def __init__(self, lines):
        self.sent, self.received, self.about, self.requests = {}, [], [], set()
        for row, line in enumerate(lines):
            event, _, outcome = line.partition(" -> ")
            self.take(row, event.split(), outcome.split())

    def take(self, row, event, outcome):
        """One entry more."""
        serial = about(event, outcome)
        if event[1] == "request" and outcome[0] == "ok":
            self.requests.add(serial)
        if outcome and outcome[0] == "sent":
            self.sent[int(event[0][1:]), int(outcome[2]), int(outcome[6])] = (row, serial, False)
        if event[1] == "receive":
            node, peer, number = int(event[0][1:]), int(event[2]), int(event[3])
            serial = serial or self.sent[peer, node, number][1]
            self.received.append(((peer, node, number), row, outcome[0]))
            if "answer" in outcome:
                self.sent[node, peer, int(outcome[-1])] = (row, serial, True)
        self.about.append(serial)

    def dashes(self, packet):
        """How the line of a packet is dashed."""
        _, serial, answer = self.sent[packet]
        return "2 3" if answer else "none" if serial in self.requests else "9 3"


def edge_of(rows):
    """The lower edge of so many rows, and of the heads behind each page of them."""
    return TOP + PITCH * (rows + rows // PAGE)


def y_of(row):
    """The middle of a row."""
    return edge_of(row) + PITCH // 2


class Shown:
    """The rows of the journal that a picture shows, and how high each lies."""

    def __init__(self, rows):
        self.rows = list(rows)
        self.places = {row: place for place, row in enumerate(self.rows)}

    def y_of(self, row):
        """The middle of a row that is shown, and of another the edge between those in front of it and those behind it."""
        return y_of(self.places[row]) if row in self.places else edge_of(sum(it < row for it in self.rows))

    def has_bar(self, first, last):
        """Whether a bar is drawn that stands behind one row and no longer behind another: at one that is shown, and in a picture without any."""
        return not self.rows or any(first <= it <= last for it in self.rows)


def touching(lines, serial):
    """The rows of the lines whose outcome names a message, or that give it up."""
    for row, line in enumerate(lines):
        event, _, outcome = (it.split() for it in line.partition(" -> "))
        if serial in outcome or event[1] == "giveup" and outcome == ["ok"] and event[3] == serial:
            yield row


def title_of(element):
    """What whoever points at an element is told: its first child."""
    first = next(iter(element), None)
    return first.text if first is not None and first.tag == SVG + "title" else None


def ends_of(element):
    """The rows' heights between which an arrow leads."""
    if element.tag == SVG + "line":
        return int(element.get("y1")), int(element.get("y2"))
    numbers = [int(word) for word in re.findall(r"\d+", element.get("d"))]
    return numbers[1], numbers[-1]


def arrows_in(picture):
    """The arrows that are drawn."""
    return [
        (*ends_of(it), it.get("class"), it.get("stroke-dasharray"), it.get("opacity"), title_of(it))
        for it in picture if it.tag in (SVG + "line", SVG + "path") and it.get("marker-end")
    ]


def way_title(journal, packet):
    """How the title of a packet's arrow or cross begins."""
    row, serial, _ = journal.sent[packet]
    source, there, number = packet
    return f"{serial} packet {number}, {source} to {there}, line {row + 3}"


def arrows_due(journal, shown, colour):
    """The arrows that are due."""
    return [
        (shown.y_of(journal.sent[packet][0]), shown.y_of(row), colour(journal.sent[packet][1]), journal.dashes(packet),
         "0.4" if what in ("again", "stale", "nothing") else "1", f"{way_title(journal, packet)} to {row + 3}")
        for packet, row, what in journal.received if row in shown.places or journal.sent[packet][0] in shown.places
    ]


def spans(values):
    """From which line to which a value stands, of those in front of the first line and behind each."""
    line = 2
    for value, same in groupby(values):
        until = line + len(list(same))
        yield value, line, until
        line = until


def bars_due(scenario, report, shown):
    """The class, the place and the title of each bar at a row that is shown, by the machine that makes the entries again."""
    states = States(scenario, report)
    ends = {id: [] for id in states.cluster.ends}

    def note():
        for id, end in states.cluster.ends.items():
            ends[id].append(((end.place, end.draining and isinstance(end.place, int)), len(end.records), len(end.received)))

    note()
    for line in states.journal:
        states.make(line)
        note()
    for id in sorted(ends):
        for (place, drains), *lines in spans([it[0] for it in ends[id]]):
            word = f"{'draining in ' * drains}frame {place}" if isinstance(place, int) else "direct network" if place == "direct" else place
            yield from bar_due("draining" if drains else "frame" if isinstance(place, int) else place, id, word, *lines, shown)
        for kind, name in ((1, "records"), (2, "received")):
            for count, *lines in spans([it[kind] for it in ends[id]]):
                if count:
                    yield from bar_due(name, id, f"{name} {count}", *lines, shown)


def bar_due(name, id, word, line, until, shown):
    """A bar's class, where it begins and how high it is, and its title; none at no row that is shown."""
    top, end = shown.y_of(line - 3), shown.y_of(until - 3)
    if shown.has_bar(line - 3, until - 3):
        yield name, top, end - top, f"endpoint {id}: {word}, line {line} to {until}"


def heads_in(picture):
    """The class, the height, the title and the text of each head, and of each interface's lane."""
    heads = [it for it in picture if it.get("class") in ("head", "again", "lane")]
    return [(it.get("class"), int(it.get("y") or it.get("y1")), title_of(it), (it[0].tail if len(it) else it.text) or "") for it in heads]


def heads_due(states, rows):
    """The heads that are due: of nodes and interfaces, and then of endpoints."""
    again = [edge_of(PAGE * (page + 1)) - PITCH // 2 + 3 for page in range(rows // PAGE)]
    for node in range(states.scenario.nodes):
        yield "head", TOP - 42, f"node {node}", f"node {node}"
        if states.scenario.network == "packet":
            title = f"interface of node {node}"
            yield "head", TOP - 8, title, f"i{node}"
            yield "lane", TOP, title, ""
            yield from (("again", y, title, f"i{node}") for y in again)
    for id, end in sorted(states.scenario.ends.items()):
        title = f"endpoint {id} of node {end.node}, tag {tag_word(end.tag)}"
        yield "head", TOP - 20, title, f"endpoint {id}"
        yield "head", TOP - 8, title, f"tag {tag_word(end.tag)}"
        yield from (("again", y, title, f"endpoint {id}") for y in again)


def legend_in(picture):
    """The signs above the lanes, and what stands beside each."""
    totals = picture.find(SVG + "desc").text
    above = [it for it in picture if it.tag in (SVG + "use", SVG + "text") and int(it.get("y")) < 134 and it.get("class") != "head" and it.text != totals]
    signs, texts = above[::2], above[1::2]
    for sign, text in zip(signs, texts):
        beside = int(text.get("x")) - int(sign.get("x")), int(text.get("y")) - int(sign.get("y"))
        yield sign.get("href"), sign.get("class"), sign.get("stroke-dasharray"), text.text if beside == (16, 3) else None


def legend_due(picture):
    """Those signs of the legend that occur below it."""
    rows = [{it.get("href") for it in group.findall(SVG + "use")} for group in picture.findall(SVG + "g")]
    below = [it for it in picture if it.tag != SVG + "g" and it.get("class") not in ("head", "again")]
    packets = [it for it in below if it.get("stroke-dasharray") and (it.get("marker-end") or int(it.get("y", "0")) > TOP)]
    signs = set().union(*rows)
    if any(it.get("href") for it in packets):
        signs.add("#lost-left")
    if not all(any(it.startswith("#fate-") for it in signs_of) for signs_of in rows):
        signs.add("#no-fate")
    boxes, dashes = {it.get("class") for it in below if it.tag == SVG + "rect"}, {it.get("stroke-dasharray") for it in packets}
    return [it for it in LEGEND if (it[1] in boxes if it[0] == "#box" else it[2] in dashes if it[0] == "#way" else it[0] in signs)]


def legend_lines_are_full(picture):
    """Whether each line of the legend stands below the one before it, and the totals below the last."""
    heights = sorted({int(it.get("y")) for it in picture if it.tag == SVG + "use" and int(it.get("y")) < 134})
    totals = [int(it.get("y")) for it in picture if it.text == picture.find(SVG + "desc").text and it.tag == SVG + "text"]
    return heights == [18 + 24 * line for line in range(len(heights))] and totals == [18 + 24 * len(heights) - 4]


def faults_in(picture, scenario, report, serial=None):
    """What is wrong with a picture, of a message or of the whole journal."""
    lines, fates = lines_of(report)
    journal = Journal(lines)
    shown = Shown(touching(lines, serial) if serial else range(len(lines)))

    def colour(serial):
        return fates.get(serial, "plain")

    if [title_of(it) for it in picture.findall(SVG + "g")] != [lines[row] for row in shown.rows]:
        yield "titles of rows"
    if arrows_in(picture) != arrows_due(journal, shown, colour):
        yield "arrows"
    got = {packet for packet, _, _ in journal.received}
    lost = sorted(
        (shown.y_of(it[0]), colour(it[1]), f"{way_title(journal, packet)}, not received")
        for packet, it in journal.sent.items() if packet not in got and it[0] in shown.places
    )
    crosses = [
        (int(it.get("y")), it.get("class"), title_of(it))
        for it in picture if (it.get("href") or "").startswith("#lost") and int(it.get("y")) > TOP  # above stands the legend
    ]
    if sorted(crosses) != lost:
        yield "crosses"
    bars = [
        (it.get("class"), int(it.get("y")), int(it.get("height")), title_of(it)) for it in picture if it.tag == SVG + "rect" and it.get("class") in BARS
    ]
    if bars != list(bars_due(scenario, report, shown)):
        yield "bars"
    if sorted(heads_in(picture), key=str) != sorted(heads_due(States(scenario, report), len(shown.rows)), key=str):
        yield "heads"
    if list(legend_in(picture)) != legend_due(picture):
        yield "legend"
    if not legend_lines_are_full(picture):
        yield "lines of the legend"
    yield from row_faults(picture, journal, lines, shown, colour)


def row_faults(picture, journal, lines, shown, colour):
    """What is wrong with the numbers and the signs of rows."""
    numbers = [it.text for it in picture.iter(SVG + "text") if it.get("class") == "line-number"]
    if numbers != [str(row + 3) for row in shown.rows]:
        yield "numbers of lines"
    for row, group in zip(shown.rows, picture.findall(SVG + "g")):
        serial, signs = journal.about[row], group.findall(SVG + "use")
        if any(int(it.get("y")) != shown.y_of(row) for it in signs):
            yield f"row {row}: height"
        if lines[row].split()[1] != "receive" and any(it.get("class") != colour(serial) for it in signs):
            yield f"row {row}: colour"


def pairs():
    """The examples that have a report."""
    for scenario in sorted(pathlib.Path("examples").glob("*.am2")):
        report = scenario.with_suffix(".out")
        if report.exists() and report.read_text().startswith("am2 report") and "segment" not in scenario.read_text():
            yield scenario, report


def main():
    """Draws and reads each picture."""
    given = sys.argv[2:]
    chosen = [tuple(map(pathlib.Path, given[k:k + 2])) for k in range(0, len(given), 2)] or list(pairs())
    wrong = rows = messages = 0
    for scenario, report in chosen:
        texts = scenario.read_text(), report.read_text()
        lines, fates = lines_of(texts[1])
        if len(lines) > 400:
            continue
        rows += len(lines)
        faults = list(faults_in(drawn(sys.argv[1], form_of(texts[0]), "".join(texts)), *texts))
        for serial in [sorted(fates)[rows % len(fates)]] if fates else []:
            messages += 1
            faults += [f"{serial}: {it}" for it in faults_in(drawn(sys.argv[1], form_of(texts[0]), "".join(texts), serial), *texts, serial)]
        for fault in faults:
            wrong += 1
            print(f"{scenario}: {fault}")
    print(f"{len(chosen)} pictures, {rows} rows, {messages} messages, {wrong} faults")
    sys.exit(1 if wrong or not rows else 0)


if __name__ == "__main__":
    main()
