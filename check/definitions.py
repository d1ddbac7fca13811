#!/usr/bin/env python3
"""docs/DEFINITIONS.md against the sources: definitions.py

Each link of a row leads to a file in which each name of the link stands: a definition or a function. The contract of each function in a column "Code" cites a definition of its row, or
a word that stands behind "by" there, from which the definitions lead to one of the row. The contract of each law leads to one, unless "of" stands in front of its link. No cell is empty:
where there is no function or law it says why. A link to an edit leads to a file."""
import re
import sys
from pathlib import Path

PAGE, LEAST_ROWS = Path("docs/DEFINITIONS.md"), 100
LINK = re.compile(r"\[([^\]]*)\]\(\.\./(crates/[^)]+)\)(?: by ((?:`[^`]+`(?:, )?)+))?(?: ((?:\*\w+\*(?:, )?)+))?")
HEAD = re.compile(r"^(?P<indent> *)(?:(?:pub|abbrev|unfoldable|opaque|record|data) )+(?P<name>[^\s:(){}]+)")
IMPORT = re.compile(r"^\s*(?:ghost |pub )*use ([\w.']+?)(?:\.\{([^}]*)\}| as (\w+))?;?\s*$", re.M)
WORD = re.compile(r"[^\s(){}\[\],;.:λ]+")
MEMBER = re.compile(r"(?<![\w.])(\w+)\.([^\s(){}\[\],;.:λ]+)")


def names_of(text):
    """Each name that is brought in, with the module and the name there."""
    found = {}
    for module, names, alias in IMPORT.findall(text):
        if alias:
            found[alias] = (module, None)
        for name in filter(None, map(str.strip, names.split(","))):
            there, _, here = name.partition(" as ")
            found[here.strip() or there.strip()] = (module, there.strip())
    return found


def file_of(module):
    """The file of a module of definitions of this repository."""
    parts = module.split(".")
    if parts[0] == "Rattle" and len(parts) > 3 and parts[2] == "specs":
        for length in range(len(parts), 3, -1):
            path = Path("crates", *parts[1:length]).with_suffix(".antt")
            if path.exists():
                return path
    return None


class Definitions:
    """The definitions of files, read as they are asked for: a definition is a file and a name."""

    def __init__(self):
        self.files, self.memo = {}, {}

    def file(self, path):
        if path not in self.files:
            text = re.sub(r"(^|\s)--[^\n]*", r"\1", path.read_text(encoding="utf-8"))
            found, current, depth = {}, None, 0
            for line in text.split("\n"):
                head, module = HEAD.match(line), re.match(r"^( *)module .* where", line)
                if module:
                    depth, current = len(module[1]) + 2, None
                elif head and len(head["indent"]) <= depth:
                    depth, current = len(head["indent"]), head["name"]
                    found[current] = line
                elif current and not re.match(r"^\s*(pub )?(use|mod) ", line):
                    found[current] += "\n" + line
            self.files[path] = (names_of(text), found)
        return self.files[path]

    def find(self, path, name, tried=()):
        """The definition of a name in a file, also where the file passes it on."""
        names, found = self.file(path)
        if name in found:
            return path, name
        if name in names and path not in tried:
            there = file_of(names[name][0])
            return self.find(there, names[name][1], (*tried, path)) if there and names[name][1] else None
        return None

    def cited(self, names, text):
        """The definitions that a text names, with the names that its file brings in."""
        pairs = [names[it] for word in set(WORD.findall(text)) for it in (word, f"◌{word}◌") if it in names and names[it][1]]
        pairs += [(names[alias][0], name) for alias, name in MEMBER.findall(text) if alias in names and not names[alias][1]]
        found = ((file_of(module), name) for module, name in pairs)
        return {it for it in (self.find(path, name) for path, name in found if path) if it}

    def leads_to(self, start):
        """All that some definitions lead to, and they themselves."""
        seen, todo = set(start), list(start)
        while todo:
            it = todo.pop()
            if it not in self.memo:
                names, found = self.file(it[0])
                text = found[it[1]]
                self.memo[it] = self.cited(names, text) | {(it[0], word) for word in set(WORD.findall(text)) if word in found}
            fresh = self.memo[it] - seen
            seen |= fresh
            todo += fresh
        return seen


def contracts(path, name):
    """What the file brings in, and of each of its functions of this name the contract."""
    text = re.sub(r"//[^\n]*", "", path.read_text(encoding="utf-8"))
    lines, found = text.split("\n"), []
    for at, line in enumerate(lines):
        head = re.match(rf"^( *)(?:pub(?:\([^)]*\))? )?(?:const |ghost |unsafe )*fn {re.escape(name)}\b", line)
        if head:
            end = next((k for k in range(at, len(lines)) if re.match(rf"^{head[1]}(\{{|.*;$)", lines[k]) or (lines[k].endswith(" {") and "ensures" not in lines[k])), at)
            found.append("\n".join(lines[at:end + 1]))
    return names_of(text), found


def links(cell):
    """Each link of a cell: its names, its file, the words behind "by", what stands in front of it, and the clauses in italics behind it."""
    return [(re.findall(r"`([^`]+)`", names), Path(path), re.findall(r"`([^`]+)`", by or ""), cell[:at], re.findall(r"\w+", clauses or ""))
            for names, path, by, clauses, at in ((*it.groups(), it.start()) for it in LINK.finditer(cell))]


def fault_of_clauses(clauses, names, path, known):
    """Which of the clauses neither the contracts of these functions nor the definitions that they cite have."""
    brought, texts = {}, []
    for name in names:
        brought, found = contracts(path, name)
        texts += found
    cited = set().union(*(known.cited(brought, it) for it in texts))
    whole = "\n".join([*texts, *(known.file(it[0])[1][it[1]] for it in cited)])
    for clause in clauses:
        if not re.search(rf"(?:requires|ensures|pub) {clause}\b", whole):
            yield f"no clause {clause} of {', '.join(names)} in {path}"


def fault_of_row(cells, known):
    """What is wrong with a row, given as its cells by the heads of their columns."""
    said = cells.get("Definition", cells.get("Said by", ""))
    there = {known.find(path, name) for names, path, *_ in links(said) if path.exists() for name in names}
    for names, path, *_ in links(said):
        for name in names:
            if not path.exists() or not known.find(path, name):
                yield f"{name} doesn't stand in {path}"
    for column, cell in cells.items():
        if not cell:
            yield f"the cell of {column} is empty"
    for column in ("Code", "Calls", "Law"):
        for names, path, by, before, clauses in links(cells.get(column, "")):
            if clauses:
                yield from fault_of_clauses(clauses, names, path, known)
            if path.suffix == ".edit" and not path.exists():
                yield f"there is no {path}"
            for name in (it.rpartition("::")[2] for it in names if path.suffix == ".rt"):
                brought, found = contracts(path, name) if path.exists() else ({}, [])
                cited = [known.cited(brought, it) for it in found]
                if not found:
                    yield f"{name} doesn't stand in {path}"
                elif column == "Code" and not any(it & there for it in cited):
                    through = {it for its in cited for it in its if it[1] in by}
                    if not known.leads_to(through) & there:
                        yield f"the contract of {name} in {path} cites nothing of the row" + (f", and {', '.join(by)} doesn't lead there" if by else "")
                elif column == "Law" and not before.rstrip().endswith("of") and not known.leads_to(set().union(*cited)) & there:
                    yield f"the law {name} in {path} doesn't lead to the row"


def main():
    known, told, heads, rows, names = Definitions(), [], [], 0, 0
    for number, line in enumerate(PAGE.read_text(encoding="utf-8").splitlines(), 1):
        if not line.startswith("|"):
            heads = []
        elif not heads:
            heads = [it.strip() for it in line.strip("|").split("|")]
        elif not line.startswith("|---"):
            cells = dict(zip(heads, (it.strip() for it in line.strip().strip("|").split("|"))))
            told += [f"{PAGE}:{number}: {it}" for it in fault_of_row(cells, known)]
            rows += 1
            names += sum(len(it[0]) for cell in cells.values() for it in links(cell))
    print(*told, f"definitions: {rows} rows with {names} names", sep="\n")
    return 1 if told or rows < LEAST_ROWS else 0


if __name__ == "__main__":
    sys.exit(main())
