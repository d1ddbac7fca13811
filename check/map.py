#!/usr/bin/env python3
"""The picture of the crates, docs/crates.svg, and the table of the parts in docs/ARCHITECTURE.md, from crates.txt: map.py [--write]

A box is a family within a layer of crates.txt: the crates whose names begin with the same two words. A box lies one row above the highest that it stands on. What is reached by another
way is left out; what is left is an arrow where it leads to the row below, and else a word at the foot of the box. The parts of the system, which the table of docs/ARCHITECTURE.md lists,
are printed bold. `--write` draws the picture and writes the table's column of what each part stands on; without it the script fails where one of both would be another."""
import re
import sys
from html import escape
from pathlib import Path

CRATES, PAGE, PICTURE = Path("crates.txt"), Path("docs/ARCHITECTURE.md"), Path("docs/crates.svg")
PARTS, OTHERS = "### The parts of the system", "### The other families"
# Measures of the picture, in pixels: a letter of a name and of small print, a line of each, the space in a box, between boxes and between rows.
LETTER, SMALL, LINE, SMALL_LINE, PAD, BESIDE, BETWEEN, EDGE = 7.25, 5.9, 18, 14, 7, 16, 38, 12
MOST_LINES = 7


def layers():
    """The layers of crates.txt with their crates, and what each crate names of them."""
    found, below, layer = {}, {}, None
    for line in CRATES.read_text(encoding="utf-8").splitlines():
        if line.startswith("# ") and "One line a crate" not in line:
            layer = line[2:].partition(":")[0]
            found[layer] = []
        elif ":" in line and not line.startswith("#"):
            name, names = line.split(":")
            found[layer].append(name.strip())
            below[name.strip()] = names.split()
    return found, {crate: [it for it in names if it in below] for crate, names in below.items()}


def family(crate):
    return "_".join(crate.split("_")[:2])


def reached(below, start):
    """All that something stands on, in whatever way."""
    seen, todo = set(), [start]
    while todo:
        fresh = [it for it in below[todo.pop()] if it not in seen]
        seen.update(fresh)
        todo += fresh
    return seen


def reduced(below):
    """What each stands on, without what it reaches by another."""
    far = {it: reached(below, it) for it in below}
    return {it: [one for one in its if not any(one in far[other] for other in its if other != one)] for it, its in below.items()}


def boxes(found, below):
    """The boxes, each a layer and a name with its crates, and on which others each stands. Where two stand on each other, each of their crates is a box."""
    apart = set()
    while True:
        of, crates = {}, {}
        for layer, its in found.items():
            for crate in its:
                box = (layer, crate if (layer, family(crate)) in apart else family(crate))
                if layer != "Tests":
                    of[crate] = box
                    crates.setdefault(box, []).append(crate)
        on = {box: list(dict.fromkeys(of[it] for crate in its for it in below[crate] if it in of and of[it] != box)) for box, its in crates.items()}
        round_about = {box for box in on if box in reached(on, box)}
        if not round_about:
            return crates, on
        apart |= round_about


def rows_of(on):
    """The boxes row by row, lowest first: each one row above the highest that it stands on."""
    height = {}

    def climb(box):
        if box not in height:
            height[box] = 1 + max((climb(it) for it in on[box]), default=-1)
        return height[box]

    for box in on:
        climb(box)
    return [[box for box in on if height[box] == row] for row in range(max(height.values()) + 1)]


class Drawing:
    """The places of the boxes and the text of the picture."""

    def __init__(self, found, below, parts):
        self.parts, self.tests = parts, found.get("Tests", [])
        self.crates, on = boxes(found, below)
        self.rows, least = rows_of(on), reduced(on)
        row = {box: number for number, its in enumerate(self.rows) for box in its}
        self.arrows = [(box, it) for box in on for it in least[box] if row[box] - row[it] == 1]
        self.feet = {box: [self.word(it) for it in least[box] if row[box] - row[it] > 1] for box in on}
        self.size = {box: self.measure(box) for box in on}
        self.x = {}
        self.order()

    def word(self, box):
        """What a box is called: its crate where it has but one, else its family, with its layer where another box has that name."""
        if len(self.crates[box]) == 1:
            return self.crates[box][0]
        same = [it for it in self.crates if it[1] == box[1]]
        return box[1] if len(same) == 1 else f"{box[1]} ({box[0]})"

    def columns(self, box):
        crates = self.crates[box]
        count = -(-len(crates) // MOST_LINES)
        each = -(-len(crates) // count)
        return [crates[at:at + each] for at in range(0, len(crates), each)]

    def foot(self, box):
        """The foot of a box in lines that aren't much wider than the box."""
        lines, width = [], max(26, *(len(it) + 8 for it in self.feet[box])) if self.feet[box] else 0
        for number, it in enumerate(self.feet[box]):
            said = f"also on {it}" if number == 0 else it
            if lines and len(lines[-1]) + len(said) + 2 <= width:
                lines[-1] += f", {said}"
            else:
                lines = [*lines[:-1], f"{lines[-1]},", said] if lines else [said]
        return lines

    def measure(self, box):
        columns, foot = self.columns(box), self.foot(box)
        names = sum(max(map(len, its)) * LETTER + 14 for its in columns)
        width = max(names, len(box[0]) * SMALL, *(len(it) * SMALL for it in foot), 0) + 2 * PAD
        return width, SMALL_LINE + max(map(len, columns)) * LINE + len(foot) * SMALL_LINE + 2 * PAD

    def order(self):
        """Boxes that arrows join are brought above each other: each row is sorted by the middle of what it is joined to, from below and from above in turn, and then spread."""
        joined = {box: [] for box in self.crates}
        for upper, lower in self.arrows:
            joined[upper].append(lower)
            joined[lower].append(upper)
        for its in self.rows:
            self.spread(its, {box: number for number, box in enumerate(its)}, True)
        for turn in range(24):
            for its in self.rows if turn % 2 == 0 else self.rows[::-1]:
                wish = {box: sum(map(self.middle, joined[box])) / len(joined[box]) if joined[box] else self.middle(box) for box in its}
                its.sort(key=lambda box: wish[box])
                self.spread(its, wish, False)
        left = min(self.x.values())
        self.x = {box: x - left + EDGE for box, x in self.x.items()}

    def middle(self, box):
        return self.x[box] + self.size[box][0] / 2

    def spread(self, row, wish, even):
        """Places a row's boxes in order, each as near to its wish as its neighbours leave: runs of boxes that touch are moved together."""
        runs = []
        for box in row:
            width = self.size[box][0] + BESIDE
            run = [[box], 0 if even else wish[box] - width / 2, width, 1]
            while runs and run[1] < runs[-1][1] + runs[-1][2]:
                before = runs.pop()
                start = (before[1] * before[3] + (run[1] - before[2]) * run[3]) / (before[3] + run[3])
                run = [before[0] + run[0], start, before[2] + run[2], before[3] + run[3]]
            runs.append(run)
        for its, start, _, _ in runs:
            for box in its:
                self.x[box] = start + BESIDE / 2
                start += self.size[box][0] + BESIDE

    def text(self):
        top, y = EDGE, {}
        for its in self.rows[::-1]:
            tall = max(self.size[box][1] for box in its)
            y.update({box: (top + (tall - self.size[box][1]) / 2, top, tall) for box in its})
            top += tall + BETWEEN
        width = max(self.x[box] + self.size[box][0] for box in self.x) + EDGE
        said = ["Tests, each beside what it tries:", *self.tests]
        body = [self.arrow(upper, lower, y) for upper, lower in self.arrows] + [self.box(box, y[box][0]) for box in self.crates] + self.note(said, width)
        high = top - BETWEEN + EDGE
        head = f'<svg xmlns="http://www.w3.org/2000/svg" width="{width:.0f}" height="{high:.0f}" viewBox="0 0 {width:.0f} {high:.0f}">'
        return "\n".join([head, "<title>The crates: families as boxes, what they stand on below them</title>", STYLE, MARKER,
                          '<rect width="100%" height="100%" fill="#ffffff"/>', *body, "</svg>", ""])

    def box(self, box, y):
        x, (width, height) = self.x[box], self.size[box]
        lines = [f'<rect class="box" x="{x:.1f}" y="{y:.1f}" width="{width:.1f}" height="{height:.1f}" rx="5"/>', small(box[0], x + PAD, y + PAD + 8)]
        at = x + PAD
        for its in self.columns(box):
            for number, crate in enumerate(its):
                line, is_part = y + PAD + SMALL_LINE + number * LINE, crate in self.parts
                if is_part:
                    lines.append(f'<rect class="part" x="{at:.1f}" y="{line:.1f}" width="{len(crate) * LETTER + 8:.1f}" height="{LINE - 2}" rx="3"/>')
                lines.append(f'<text class="{"bold" if is_part else "name"}" x="{at + 4:.1f}" y="{line + 12:.1f}">{escape(crate)}</text>')
            at += max(map(len, its)) * LETTER + 14
        below = y + PAD + SMALL_LINE + max(map(len, self.columns(box))) * LINE
        return "\n".join(lines + [small(it, x + PAD, below + 10 + number * SMALL_LINE) for number, it in enumerate(self.foot(box))])

    def arrow(self, upper, lower, y):
        """From the lower edge of a box to the upper edge of one in the row below, each with its own place at both edges."""
        def port(box, others):
            its = sorted(others, key=lambda it: self.middle(it[0] if it[1] == box else it[1]))
            return self.x[box] + self.size[box][0] * (its.index((upper, lower)) + 1) / (len(its) + 1)

        x1, x2 = port(upper, [it for it in self.arrows if it[0] == upper]), port(lower, [it for it in self.arrows if it[1] == lower])
        (y1, top, tall), (y2, low, _) = y[upper], y[lower]
        leaves, bend = top + tall, (low - top - tall) * 0.55
        way = [f"M{x1:.1f},{y1 + self.size[upper][1]:.1f} L{x1:.1f},{leaves:.1f}", f"C{x1:.1f},{leaves + bend:.1f} {x2:.1f},{low - bend:.1f} {x2:.1f},{low - 3:.1f}",
               f"L{x2:.1f},{y2 - 3:.1f}"]
        return f'<path class="arrow" d="{" ".join(way)}"/>'

    def note(self, lines, width):
        wide = max(map(len, lines)) * SMALL + 2 * PAD
        x = width - EDGE - wide
        return [small(it, x, EDGE + 10 + number * SMALL_LINE) for number, it in enumerate(lines)]


STYLE = """<style>
.box { fill: #f6f8fa; stroke: #8c959f; }
.part { fill: #0b5cad; }
.bold { font: bold 12px "DejaVu Sans Mono", Menlo, Consolas, monospace; fill: #ffffff; }
.name { font: 12px "DejaVu Sans Mono", Menlo, Consolas, monospace; fill: #1f2328; }
.small { font: 10px "DejaVu Sans", Verdana, sans-serif; fill: #57606a; }
.arrow { fill: none; stroke: #57606a; stroke-width: 1.2; marker-end: url(#head); }
</style>"""
MARKER = '<defs><marker id="head" viewBox="0 0 8 8" refX="5" refY="4" markerWidth="7" markerHeight="7" orient="auto"><path d="M0,0 L8,4 L0,8 z" fill="#57606a"/></marker></defs>'


def small(text, x, y):
    return f'<text class="small" x="{x:.1f}" y="{y:.1f}">{escape(text)}</text>'


def table_of(page, heading):
    """The lines of the table under a heading, without its head, each as cells."""
    part = page.partition(f"\n{heading}\n")[2].partition("\n#")[0]
    rows = [line for line in part.splitlines() if line.startswith("|")][2:]
    return [[cell.strip() for cell in line.strip("|").split("|")] for line in rows], rows


def stands_on(parts, below):
    """The parts of which each part needs a crate, without those whose needed crates are all needed by the needed crates of another."""
    on = {}
    for part in parts:
        met = {other: {it for it in reached(below, part) if family(it) == other} for other in parts if other != part}
        far = {other: set().union(*(reached(below, it) for it in its)) for other, its in met.items()}
        on[part] = [it for it in parts if met.get(it) and not any(met[it] <= far[other] for other in met if other != it)]
    return on


def main():
    found, below = layers()
    page, told = PAGE.read_text(encoding="utf-8"), []
    cells, rows = table_of(page, PARTS)
    parts = [its[0] for its in cells]
    told += [f"{PAGE}: {it} is no crate" for it in parts if it not in below]
    parts = [it for it in parts if it in below]
    on, fresh = stands_on(parts, below), page
    for its, row in zip(cells, rows):
        if its[0] in on:
            fresh = fresh.replace(row, f"| {' | '.join([*its[:2], ', '.join(on[its[0]]) or 'none', *its[3:]])} |")
    families = {*parts, *re.findall(r"\bam\w+\b", " ".join(its[0] for its in table_of(page, OTHERS)[0]))}
    told += [f"{PAGE}: no table has {it}" for it in below if not {it, family(it)} & families and it not in found.get("Tests", [])]
    picture = Drawing(found, below, set(parts)).text()
    if "--write" in sys.argv:
        PAGE.write_text(fresh, encoding="utf-8")
        PICTURE.write_text(picture, encoding="utf-8")
        page = fresh
    told += [f"{PAGE}: what a part stands on isn't as check/map.py --write makes it"] if page != fresh else []
    told += [f"{PICTURE} isn't as check/map.py --write makes it"] if not PICTURE.exists() or PICTURE.read_text(encoding="utf-8") != picture else []
    print(*told, f"map: {len(parts)} parts of {len(below)} crates", sep="\n")
    return 1 if told else 0


if __name__ == "__main__":
    sys.exit(main())
