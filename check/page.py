#!/usr/bin/env python3
"""The page of a report in a browser: page.py LAB AM2 [--shots FOLDER].

LAB prints pages of six reports: a small one, that of the made run 0, one with 256 endpoints, one whose scenario tries to break out of the page, and two of
2,000 and of 2,001 entries. They are opened, clicked and typed at, and what they show is compared with a second reading of the report (`json_lines.py`) and of
the machine's states (`state.py`). With --shots it leaves pictures of what it saw. The changes that the pages of the examples' reports carry are compared with
the second reading without a browser; where there is no chromium, nothing else is tried.
"""
import html
import json
import pathlib
import re
import subprocess
import sys
import tempfile

import browser
from chart import lines_of
from json_lines import objects
from lab import CAUSES, FATES, form_of, place_of
from state import changes, examples

TOP = pathlib.Path(__file__).resolve().parent.parent
LIT = "[...document.querySelectorAll('#picture > svg > g')].flatMap((it, row) => it.classList.contains('dim') ? [] : [row])"
FOCUS = "(() => { const it = document.activeElement; return it.id || it.textContent.trim(); })()"
INSIDE = """(() => {
  const row = document.querySelectorAll('#picture > svg > g')[%d], line = document.querySelector('#line-%d');
  const marks = [...row.querySelectorAll(':scope > use')].map((it) => it.getAttribute('y') * 1 + row.transform.baseVal.consolidate().matrix.f);
  const box = document.querySelector('#picture > svg').getBoundingClientRect(), at = line.getBoundingClientRect();
  return Math.abs(marks[0] - 190 + box.top - at.top - at.height / 2);
})()"""
CHOSEN = "document.getElementById(document.querySelector('#lines').getAttribute('aria-activedescendant')).getAttribute('aria-selected')"
CONTROLS = "search by-message by-endpoint by-node by-fate by-kind previous-mark next-mark fold-lanes fold-lines height lines side".split()
ROLES = "button checkbox combobox searchbox textbox slider listbox option image link".split()
WAY = r"\d+\.\d+ packet \d+, \d+ to \d+, line \d+ to \d+"
CHANGE = "document.querySelector('#side .changes')?.textContent ?? ''"
BREAKING = "# </script><script>document.title='out'</script><img src=x onerror=alert(1)>\n# <!-- ' \" ]]> <svg onload=alert(2)>\n"
# how many entries a report has at most whose page carries what each changed
MOST_CARRIED = 2000


def wide_scenario():
    """256 endpoints on 16 nodes, of which eight do something."""
    lines = ["am2 1", "network packet", "nodes 16", "frames 16"]
    lines += [f"endpoint {end} {end % 16} {1000 + end}" for end in range(256)] + [f"thread {node} {node}" for node in range(4)]
    for node in range(4):
        source, there = 17 * node, (node + 5) % 16 + 112
        lines += [f"t{node} map {source} 0 {there} {1000 + there} 3", f"t{node} request {source} 0 1 0 0 0 0", f"t{node} request {source} 0 1 1 0 0 0"]
    return "\n".join(lines) + "\n"


def long_scenario(count):
    """One endpoint, which gets another tag and is polled so often that the report has so many entries."""
    return "am2 1\nnetwork packet\nnodes 1\nendpoint 0 0 1\nthread 0 0\nt0 tag 0 5\n" + "t0 poll 0\n" * (count - 1)


def answered(*words, text):
    done = subprocess.run(words, input=text, capture_output=True, text=True, check=False)
    if done.returncode:
        raise SystemExit(f"{' '.join(words)} ended with {done.returncode}: {done.stdout[:200]}")
    return done.stdout


class Trial:
    """The pages in the browser, and what held of them."""

    def __init__(self, window, lab, am2, folder, shots):
        self.window, self.lab, self.am2, self.folder, self.shots = window, lab, am2, pathlib.Path(folder), shots
        self.name, self.entries, self.scenario, self.report, self.count, self.bad = "", [], "", "", 0, 0

    def page(self, name, scenario, report=None, address="", **size):
        """Opens the page of a scenario's report."""
        report = report or answered(self.am2, "run", text=scenario)
        text = answered(self.lab, "page", "run", text=scenario + report)
        file = self.folder / f"{name}.html"
        file.write_text(text)
        self.name, self.entries, self.scenario, self.report = name, list(objects(report)), scenario, report
        self.again(address, **size)
        return text

    def again(self, address="", **size):
        self.window.open((self.folder / f"{self.name}.html").as_uri() + address, **size)
        self.window.wait("document.body.classList.contains('ready')")

    def is_so(self, what, told, expected=True):
        self.count += 1
        if told != expected:
            self.bad += 1
            print(f"{self.name}: {what}: {str(told)[:300]}, and not {str(expected)[:300]}")

    def says(self, what, expression, expected=True):
        self.is_so(what, self.window.value(expression), expected)

    def shot(self, name):
        if self.shots:
            self.window.shot(pathlib.Path(self.shots) / f"{name}.png")

    def rows(self, passes):
        return [row for row, entry in enumerate(self.entries) if passes(entry)]

    def of(self, serial):
        return self.rows(lambda it: serial in (it["serial"], it["reply"]))

    def failed(self):
        ends = (["returned"], ["unknown"])
        return self.rows(lambda it: (it["outcome"] or "").split()[:1] in ends or (it["event"].startswith("giveup") and it["outcome"] == "ok"))

    def because(self, serial):
        """The sentence that tells why a message has its fate."""
        words = next(line.split() for line in self.report.splitlines() if line.startswith(f"fate {serial} "))
        if words[3] == "pending":
            return place_of(lines_of(self.report)[0], serial)
        return CAUSES[words[4]] if words[3] == "returned" else FATES[words[3]]

    def at(self, hash):
        self.says(f"the address {hash}", "location.hash", hash)


def lines_and_heads(trial):
    window = trial.window
    trial.says("as many rows as entries", "document.querySelectorAll('#picture > svg > g').length", len(trial.entries))
    trial.says("the journal is carried", "document.querySelector('#journal').textContent.trim().split('\\n').length", len(trial.entries))
    first = trial.entries[4]["line"]
    trial.is_so("a line stands beside its row", window.value(INSIDE % (4, first)) < 2)
    trial.says("its number", f"document.querySelector('#line-{first} .number').textContent", str(first))
    told = "[...document.querySelectorAll('#picture > svg > line[marker-end]')].map((it) => it.firstChild.textContent)"
    trial.is_so("each arrow tells its packet", all(re.fullmatch(WAY, it) for it in window.value(told)))
    trial.says("and heads come once", "[...document.querySelectorAll('#picture .again')].every((it) => getComputedStyle(it).display === 'none')")
    window.value("document.querySelector('#view').scrollTo(0, 1e9)")
    trial.says("the heads stay", "document.querySelector('#heads').getBoundingClientRect().top === document.querySelector('#view').getBoundingClientRect().top")
    trial.says("the last line is there", f"Boolean(document.querySelector('#line-{trial.entries[-1]['line']}'))")
    window.value("document.querySelector('#view').scrollTo(0, 0)")


def messages(trial, serial):
    """A click on a serial, a line, a row of the picture and an arrow."""
    window, of = trial.window, trial.of(serial)
    trial.again(f"#/{trial.entries[of[0]]['line']}")
    window.key("Escape")
    window.click_on(f"#line-{trial.entries[of[0]]['line']} a")
    trial.at(f"#{serial}")
    trial.says("the message's rows are lit", LIT, of)
    trial.says("its text is at the side", f"document.querySelector('#side').textContent.includes('Message {serial}')")
    told = window.value("document.querySelector('#side').textContent")
    trial.is_so("each of its lines is told", all(trial.entries[row]["event"] in told for row in of))
    trial.is_so("and why it ended so", trial.because(serial) in told)
    line = trial.entries[of[1]]["line"]
    window.click_on(f"#line-{line} .number")
    trial.at(f"#{serial}/{line}")
    window.key("Escape")
    trial.at("")
    trial.says("nothing is dim", LIT, list(range(len(trial.entries))))
    window.click_at(f"document.querySelectorAll('#picture > svg > g')[{of[1]}].querySelector(':scope > use:last-of-type')")
    trial.at(f"#{serial}/{line}")
    window.key("Escape")
    sent = next((row for row in of if trial.entries[row]["packet"]), None)
    if sent is not None:
        arrow = "[...document.querySelectorAll('#picture > svg > line[marker-end]')].find((it) => it.classList.contains('%s'))" % trial.entries[of[0]]["fate"]
        window.click_at(arrow)
        trial.is_so("an arrow leads to its message", window.value("location.hash").startswith("#"))
        window.key("Escape")


def endings(trial):
    """The sentence of a message of each fate and each cause."""
    ends = {}
    for line in trial.report.splitlines():
        if line.startswith("fate "):
            ends.setdefault(tuple(line.split()[3:]), line.split()[1])
    for serial in ends.values():
        trial.again(f"#{serial}")
        trial.says(f"why {serial} ended so", f"document.querySelector('#side p').textContent.endsWith(': {trial.because(serial)}')")


def changed(trial, serial, most=60):
    """What the entry of a line changed, as `state` tells it of the line in front of it and of it."""
    window, told = trial.window, changes(trial.scenario, trial.report)
    trial.again()
    for line in [*told][:most]:
        window.value(f"location.hash = '#/{line}'")
        window.wait(f"document.querySelector('#side h2').textContent === 'Line {line}'")
        trial.says(f"what line {line} changed", CHANGE, told[line])
        trial.says("it is said under a heading", "document.querySelector('#side h3').textContent", "What it changed")
        if line > 3:
            text = answered(trial.lab, "state", "run", str(line - 1), str(line), text=trial.scenario + trial.report)
            trial.is_so(f"as state tells it of line {line}", text, told[line])
    trial.again(f"#{serial}/{trial.entries[trial.of(serial)[0]]['line']}")
    trial.says("it stands below why", "document.querySelector('#side ol').nextElementSibling.textContent", "What it changed")


def carried(trial):
    """A report of 2,000 entries carries what they changed, and one of more says that it doesn't."""
    for count in (MOST_CARRIED, MOST_CARRIED + 1):
        text = trial.page(f"entries-{count}", long_scenario(count), address="#/3")
        trial.is_so("so many entries", len(trial.entries), count)
        trial.is_so("the changes are carried", '<template id="changes">' in text, count == MOST_CARRIED)
        trial.says("what the first changed", CHANGE, changes(trial.scenario, trial.report)[3] if count == MOST_CARRIED else "")
        trial.says("that none are carried", "document.querySelector('#side').textContent.includes('carries no changes')", count != MOST_CARRIED)


def failures(trial):
    """n and N, the buttons, and the marks."""
    window, failed = trial.window, trial.failed()
    hash = lambda row: f"#{trial.entries[row]['serial']}/{trial.entries[row]['line']}" if trial.entries[row]["serial"] else f"#/{trial.entries[row]['line']}"
    trial.again()
    for row in failed[:3]:
        window.key("n")
        trial.at(hash(row))
    if len(failed) > 1:
        window.key("N")
        trial.at(hash(failed[min(2, len(failed) - 1) - 1]))
        window.click_on("#next-mark")
        trial.at(hash(failed[min(2, len(failed) - 1)]))
        window.click_on("#previous-mark")
        window.click_on("#marks a:last-of-type")
        trial.is_so("a mark leads to a failure", window.value("location.hash") in map(hash, failed))
    trial.is_so("there are marks where something failed", bool(window.value("document.querySelectorAll('#marks a').length")), bool(failed))


def filters(trial, endpoint):
    window, entries = trial.window, trial.entries
    trial.again()
    kind = "bind" if any(it["event"].startswith("bind") for it in entries) else "request"
    fate = next(it["fate"] for it in entries if it["fate"])
    serial = next(it["serial"] for it in entries if it["serial"])
    choose = "(() => { const it = document.querySelector('#%s'); it.value = '%s'; it.dispatchEvent(new Event('input', { bubbles: true })); })()"
    of_kind, of_fate = trial.rows(lambda it: it["event"].split()[0] == kind), trial.rows(lambda it: it["fate"] == fate)
    for field, value, rows in (("by-kind", kind, of_kind), ("by-fate", fate, of_fate), ("by-message", serial, trial.of(serial))):
        window.value(choose % (field, value))
        trial.says(f"the rows by {field}", LIT, rows)
        trial.says(f"their number by {field}", "document.querySelector('#matches').textContent", f"{len(rows)} of {len(entries)} lines")
        window.key("Escape")
        trial.says("the filters are gone", "document.querySelector('#matches').textContent", "")
    window.value(choose % ("by-endpoint", endpoint))
    rows = trial.rows(lambda it: it["actor"][0] in "txd" and it["event"].split()[1] == endpoint)
    trial.is_so("the endpoint's own rows are lit", set(rows) <= set(window.value(LIT)) != set(range(len(entries))))
    window.key("Escape")
    window.value(choose % ("by-node", "1"))
    trial.is_so("the interface's rows are lit by node", set(trial.rows(lambda it: it["actor"] == "i1")) <= set(window.value(LIT)))
    window.key("Escape")
    window.key("/")
    trial.says("/ leads to the search", FOCUS, "search")
    window.type("ok")
    found = trial.rows(lambda it: "ok" in f"{it['actor']} {it['event']} -> {it['outcome']}")
    trial.says("the rows found", LIT, found)
    window.key("Enter")
    trial.says("Enter goes to one", "location.hash.split('/')[1]", str(entries[found[0]]["line"]))
    window.key("Escape")
    window.key("Escape")
    window.key("j")
    window.key("Escape")
    window.value("document.activeElement.blur()")
    window.key("Escape")


def moves(trial):
    window, lines = trial.window, [it["line"] for it in trial.entries]
    trial.again()
    for key, line in (("j", lines[0]), ("j", lines[1]), ("j", lines[2]), ("k", lines[1])):
        window.key(key)
        trial.says(f"{key} goes to line {line}", "location.hash.split('/')[1]", str(line))
        trial.says("which is told to screen readers", CHOSEN, "true")
    window.key("n")
    after = window.value("location.hash")
    if trial.failed():
        window.key("n")
        window.call("Runtime.evaluate", expression="history.back()")
        window.wait(f"location.hash === '{after}'")
        trial.says("back goes to what was selected before", "document.querySelector('#side h2').textContent", f"Line {after.split('/')[1]}")
    trial.again(f"#{trial.entries[-1]['serial'] or ''}/{lines[-1]}")
    trial.says("the address leads to a line", f"document.querySelector('#line-{lines[-1]}').getAttribute('aria-selected')", "true")


def folds(trial, narrower):
    window = trial.window
    trial.again()
    width = "Number(document.querySelector('#picture > svg').getAttribute('width'))"
    before = window.value(width)
    window.key("f")
    trial.is_so("idle lanes fold", window.value(width) < before, narrower)
    aligned = """[...document.querySelectorAll('#heads text:not(.folded)')].filter((it) => it.textContent.startsWith('endpoint ')).every((head) =>
      [...document.querySelectorAll('#picture > svg > g > use')].some((it) => it.getAttribute('x') === head.getAttribute('x')))"""
    if narrower:
        trial.says("a head stands over each lane in which something happens", aligned)
        trial.shot(f"{trial.name}-folded")
    window.key("f")
    trial.is_so("and unfold", window.value(width), before)
    first = next(it["serial"] for it in trial.entries if it["serial"])
    trial.again(f"#{first}")
    window.click_on("#fold-lines")
    shown = "[...document.querySelectorAll('#lines .line')].map((it) => Number(it.id.slice(5)))"
    trial.says("other lines fold", shown, [trial.entries[row]["line"] for row in trial.of(first)])
    window.click_on("#fold-lines")


def reached(trial):
    """All of it without a mouse, and with names."""
    window = trial.window
    trial.again()
    seen = []
    for _ in range(24):
        window.key("Tab")
        seen.append(window.value(FOCUS))
    for name in CONTROLS:
        trial.is_so(f"Tab reaches {name}", name in seen)
    window.value("document.querySelector('#lines').focus()")
    window.key("ArrowDown")
    trial.says("an arrow key goes to the first line", "location.hash.split('/')[1]", str(trial.entries[0]["line"]))
    nodes = window.call("Accessibility.getFullAXTree")["nodes"]
    named = [(it["role"]["value"], it.get("name", {}).get("value", "")) for it in nodes if not it.get("ignored") and "role" in it]
    nameless = [role for role, name in named if role in ROLES and not name.strip()]
    trial.is_so("everything has a name", nameless, [])
    trial.is_so("the picture has one", any(role == "image" and "picture" in name for role, name in named))


def looks(trial):
    window = trial.window
    shade = "getComputedStyle(document.body).backgroundColor"
    for scheme, colour in (("dark", "rgb(20, 24, 28)"), ("light", "rgb(255, 255, 255)")):
        window.scheme(scheme)
        trial.again()
        trial.says(f"the {scheme} colour", shade, colour)
        trial.shot(f"{trial.name}-{scheme}")
    for wide in (360, 600, 900, 2000):
        trial.again(wide=wide, high=800)
        page = "document.documentElement"
        trial.says(f"{wide} pixels are enough", f"{page}.scrollWidth <= innerWidth && {page}.scrollHeight <= innerHeight + 1")
        trial.says("there is room for the picture", "document.querySelector('#view').clientHeight > 200")
        if wide in (360, 2000):
            trial.shot(f"{trial.name}-{wide}")
    trial.again()
    drawn = window.value("document.querySelector('#picture > svg').getAttribute('width')")
    window.value("addEventListener('beforeprint', () => { globalThis.printed = document.querySelector('#picture > svg').getAttribute('viewBox'); })")
    window.call("Page.printToPDF")
    trial.says("the whole picture is printed, as it was drawn", "printed.startsWith('0 0 ')")
    window.scheme("light", "print")
    trial.says("without the frame", "['bar', 'side', 'marks', 'lines'].every((id) => getComputedStyle(document.getElementById(id)).display === 'none')")
    window.scheme("light")
    trial.is_so("and back", window.value("document.querySelector('#picture > svg').getAttribute('width')"), drawn)


def whole(trial, serial, endpoint, narrower):
    lines_and_heads(trial)
    messages(trial, serial)
    endings(trial)
    if len(trial.entries) <= MOST_CARRIED:
        changed(trial, serial)
    failures(trial)
    filters(trial, endpoint)
    moves(trial)
    folds(trial, narrower)
    reached(trial)
    looks(trial)


def broken_out(trial, text):
    """Nothing of the scenario's comments is in the page, and it has the two scripts that it brings."""
    trial.is_so("no comment of the scenario is in the page", any(word in text for word in ("onerror", "onload", "title='out'")), False)
    trial.says("two scripts", "document.scripts.length", 2)
    trial.says("its own title", "document.title.startsWith('am2 report')")
    trial.says("no picture from elsewhere", "document.images.length + document.querySelectorAll('iframe, object, embed, link').length", 0)
    journal = text.split('id="journal">', 1)[1].split("</script>", 1)[0]
    trial.is_so("no tag in the journal", "<" in journal, False)
    told = text.split('<template id="changes">', 1)[1].split("</template>", 1)[0]
    trial.is_so("no tag in the changes", "<" in told, False)
    trial.says("no element in the changes", "document.querySelector('#changes').content.children.length", 0)
    lines = text_of(changes(trial.scenario, trial.report))
    trial.says("the changes are those of the second reading", "document.querySelector('#changes').content.textContent", lines)
    trial.is_so("the journal is JSON", [json.loads(line) for line in journal.split("\n") if line], trial.entries)


def tried(trial):
    small, report = ((TOP / "examples" / f"run-withheld.{end}").read_text() for end in ("am2", "out"))
    trial.page("small", small, report)
    whole(trial, "0.2", "1", False)
    broken_out(trial, trial.page("breaking", small.replace("network", BREAKING + "network"), report))
    trial.page("wide", wide_scenario())
    whole(trial, "0.1", "17", True)
    trial.page("made", answered(trial.lab, "scenario", "make", "0", text=""))
    whole(trial, "0.1", "1", False)
    carried(trial)
    trial.is_so("faults of a script, or something asked of the network", trial.window.faults, [])


def text_of(told):
    """The text of what each entry changed, under its line."""
    return "".join(f"line {line}\n{lines}" for line, lines in told.items())


def carried_wrongly(lab):
    """The examples in whose pages other changes stand than a second reading finds. It takes no browser."""
    wrong = 0
    for name, scenario, report in examples():
        page = answered(lab, "page", form_of(scenario), text=scenario + report)
        found = [html.unescape(it) for it in re.findall(r'<template id="changes">(.*?)</template>', page, re.S)]
        if found != [text_of(changes(scenario, report))]:
            wrong += 1
            print(f"{name}: its page tells other changes than the second reading")
    return wrong


def main(lab, am2, shots):
    wrong = carried_wrongly(lab)
    program = browser.found()
    if program is None:
        print(f"page: the changes of the examples tried, {wrong} wrong; nothing else, there is no chromium")
        return 1 if wrong else 0
    window = browser.Browser(program)
    try:
        with tempfile.TemporaryDirectory() as folder:
            trial = Trial(window, lab, am2, folder, shots)
            tried(trial)
    finally:
        window.close()
    print(f"page: {trial.count} points tried, {trial.bad} fail; the changes of the examples tried, {wrong} wrong")
    return 1 if trial.bad or wrong else 0


if __name__ == "__main__":
    if len(sys.argv) < 3:
        sys.exit(__doc__)
    sys.exit(main(sys.argv[1], sys.argv[2], sys.argv[4] if sys.argv[3:4] == ["--shots"] else None))
