#!/usr/bin/env python3
"""What must be believed, in slices: the definitions on which the contracts of the two programs' top calls rest: believed.py [--write] [--names]

Follows the imports from a contract, name by name: a definition is counted where the contract, a trait that it asks for, or a definition that is counted names
it. Where a definition has a line for each command, what that line names belongs to the command's slice. Prints the sums, or writes docs/BELIEVED.md; with
--names also each definition. Without --write it fails where that page says otherwise. Of the kit, the names of definitions that ours name are told, and
those of its standard library are not followed."""
import re
import sys
import textwrap
from pathlib import Path

PAGE = Path("docs/BELIEVED.md")
# Where a slice begins: definitions as (crate, file, name), the contract of a public function as (crate, name), a command as the word of its lines.
SLICES = (
    ("The nine laws and one fate", "definitions", (("am_model", "PostOffice", "PostOffice"), ("am_laws", "Fates", "HasOneFate")),
     "What each journal of the cluster obeys that is printed: `PostOffice`, and `HasOneFate` of each serial. Begin with "
     "[PostOffice](../crates/am_model/specs/PostOffice.antt): each law has its plain sentence above it; these take half an hour, the definitions that they name an hour more. Of the machine it needs only with which tag an endpoint begins (`opening`) and at which node it is (`home`). "
     "Then one can say what no such journal can show, whatever the machine is."),
    ("The printed report", "definitions", (("am_office_report", "Report", "report"),),
     "The bytes that are printed for a journal: `report`. With it one can say what a printed line stands for."),
    ("A history that the lines follow, and the grammar", "contract", ("am_main", "am2"),
     "All of `am2 step`: the contract of the top call, what the bytes spell (`grammar`), the machine (`IsHistory`), and when a journal follows the lines "
     "(`FollowsSteps`). `PrintsHistory` puts it together."),
    ("`run`", "command", "Run", "The scripts of threads, the drain, and what is promised of each run (`PrintsRun`)."),
    ("`make`", "command", "Make", "The scenario that a number generates, and the summary of its run."),
    ("`segments`", "command", "Segments", "Blocks that are cut into messages and put together again."),
    ("`session`", "command", "Session", "Two interfaces that restart: a machine of its own."),
    ("`count`", "command", "Count", "The words of a text, and how a round of messages counts them."),
    ("`check`", "command", "Check", "When a text is the report of a history that follows its scenario."),
    ("A run by a seed", "definitions", (("am_lab_schedules", "SeedRuns", "IsSeedRun"),),
     "What `am2_lab schedule`, `find` and `shrink --seed` say of a run beyond what `run` does (`IsSeedRun`): whose turn comes when "
     "([Order](../crates/am_cluster_schedule/specs/Order.antt), which can be read alone), what each worker does in its turn, and what is made of what they left."),
    ("The lab", "contract", ("am_lab", "answer"),
     "What [`am2_lab`](LAB.md) tells of reports: the contract of its own top call, `answer`."),
)
COMMANDS = [it[2] for it in SLICES if it[1] == "command"]
# How many slices, the last ones, are of the lab's program alone.
APART = 2
HEAD = re.compile(r"^(?P<indent> *)(?:(?:(?:pub|abbrev|unfoldable|opaque|record|data|native) )+(?P<name>[^\s:(){}]+)|(?P<bare>[^\s:(){}]+) :\s)")
MODULE = re.compile(r"^(?P<indent> *)module \S+ (?P<parameters>.*) where")
IMPORT = re.compile(r"^\s*(?:ghost |pub )*use ([\w.']+?)(?:\.\{([^}]*)\}| as (\w+))?;?\s*$", re.M)
RUST_IMPORT = re.compile(r"^\s*(?:pub )?use (\w+)::([^;]*);", re.M)
WORD = re.compile(r"(?<![\w.'])[^\s(){}\[\],;.:λ]+")
MEMBER = re.compile(r"(?<![\w.])(\w+)\.([^\s(){}\[\],;.:λ]+)")
# What a do-block names without saying so.
BIND = "◌>>=◌"


def plain(text):
    """The text without comments."""
    return re.sub(r"(^|\s)--[^\n]*", r"\1", text)


def code_of(path):
    """The text of a Rust file without comments, attributes and strings."""
    text = re.sub(r'//[^\n]*|"(?:\\.|[^"\\])*"', lambda it: "" if it[0].startswith("/") else '""', path.read_text(encoding="utf-8"), flags=re.S)
    return re.sub(r"^\s*#!?\[.*\]\s*$", "", text, flags=re.M)


def sources(crate):
    return sorted(Path("crates", crate, "src").rglob("*.rt"))


def block(text, start):
    """From a place up to the end of the braces, or of the statement, that begin behind it."""
    depth, at = 0, start
    while at < len(text):
        depth += {"{": 1, "}": -1}.get(text[at], 0)
        if depth == 0 and text[at] in "};":
            break
        at += 1
    return text[start : at + 1]


class File:
    """A file of definitions: where each name that it uses comes from, and the text and lines of each definition."""

    def __init__(self, path):
        text = plain(path.read_text(encoding="utf-8"))
        self.path, self.names, self.text, self.lines = path, names_of(text), {}, {}
        current, modules = None, []
        for line in text.split("\n"):
            if re.match(r"^\s*(pub )?(use|mod|open|import|infix[lr]?) ", line) or not line.strip():
                continue
            indent = len(line) - len(line.lstrip(" "))
            module, head = MODULE.match(line), HEAD.match(line)
            if module or (head and indent < len(modules) * 2 and indent % 2 == 0 and indent <= len(modules) * 2):
                modules = modules[: indent // 2]
            if module:
                modules.append(module["parameters"])
                current = None
                continue
            if head and indent <= len(modules) * 2:
                current = head["name"] or head["bare"]
                self.text[current], self.lines[current] = [f"({parameters})" for parameters in modules], 0
            if current:
                self.text[current].append(line)
                self.lines[current] += 1


def names_of(text):
    """Each name that is brought in, with the module and the name there."""
    found = {}
    for module, names, alias in IMPORT.findall(text):
        if alias:
            found[alias] = (module, None)
        for name in filter(None, map(str.strip, names.split(","))):
            there, _, here = name.partition(" as ")
            found[here.strip() or there.strip()] = (module, there.strip())
    return found


class Place:
    """What a module is: a file of definitions of this repository, a Rust type that declarations are of, or a module of the kit."""

    def __init__(self, module):
        parts = module.split(".")
        self.file = self.kind = self.kit = None
        if len(parts) < 3 or parts[0] != "Rattle" or parts[2] != "specs":
            return
        if not Path("crates", parts[1]).is_dir():
            self.kit = ".".join(parts[1:]) if parts[1] != "std" else None
        elif len(parts) > 3 and parts[3] == "declared":
            at = next((at for at, it in enumerate(parts) if at > 3 and it[:1].isupper()), None)
            self.kind = (parts[1], parts[4:at], parts[at]) if at else None
        else:
            paths = (Path("crates", *parts[1:length]).with_suffix(".antt") for length in range(len(parts), 3, -1))
            self.file = next((it for it in paths if it.exists()), None)


def fields_of(text):
    """The words that may name types in a declaration: those with a capital, but for its own name and its variants'."""
    words, depth = set(), 0
    for it in re.finditer(r"[{}()]|(?P<head>(?<=[{,])\s*)?\b(?P<word>[A-Z]\w+)", text[text.index("{") :] if "{" in text else text):
        depth += {"{": 1, "(": 1, "}": -1, ")": -1}.get(it[0], 0)
        if it["word"] and not (it["head"] is not None and depth == 1):
            words.add(it["word"])
    return words


def declaration(crate, modules, head):
    """The file and the text of the first declaration with this head in a crate, that of this module before all others."""
    paths = sorted(sources(crate), key=lambda it: [part for part in it.with_suffix("").parts[3:] if part not in ("lib", "mod")] != modules)
    for path in paths:
        code = code_of(path)
        found = re.search(rf"^(?:pub(?:\([^)]*\))? )?{head}\b", code, re.M)
        if found:
            return path, block(code, found.start())
    return None


def rust_item(path, word, what):
    """The crate, the modules, the file and the text of a trait or type that a Rust file names, if it is of this repository."""
    own = path.parts[1]
    places = [(own, list(path.with_suffix("").parts[3:]))]
    for root, rest in RUST_IMPORT.findall(code_of(path)):
        if re.search(rf"\b{word}\b", rest):
            places.insert(0, (own if root in ("crate", "self", "super") else root, re.findall(r"(\w+)::", rest)))
    for crate, modules in places:
        found = declaration(crate, modules, f"(?:{what}) {word}") if Path("crates", crate).is_dir() else None
        if found:
            return crate, modules, *found
    return None


class Closure:
    def __init__(self):
        self.files, self.reached, self.kinds, self.kit, self.traits, self.later = {}, {}, {}, {}, {}, {it: [] for it in COMMANDS}
        self.told, self.todo = {}, []

    def file(self, path):
        if path not in self.files:
            self.files[path] = File(path)
        return self.files[path]

    def begin(self, how, where):
        """What a slice begins with; then all that it names."""
        if how == "definitions":
            self.todo += [definition_of(*it) for it in where]
        elif how == "contract":
            self.contract(*where)
        else:
            self.told[where] = True
            for file, line in self.later[where]:
                self.follow(file.names, line, file)
        while self.todo:
            self.reach(*self.todo.pop())

    def contract(self, crate, name):
        """What the contract of a public function names, and the traits that its bounds ask for."""
        for path in sources(crate):
            text = code_of(path)
            found = re.search(rf"^pub fn {name}\b(.*?)^\{{", text, re.M | re.S)
            if found:
                self.follow(names_of(text), found[1])
                bounds = found[1].split(">(", 1)[0]
                for word in re.findall(r"\b[A-Z]\w+", bounds):
                    item = rust_item(path, word, "trait")
                    if item:
                        self.traits.setdefault(item[2], set()).add(word)
                        self.follow(names_of(code_of(item[2])), re.sub(r"\bfn \w+", "", item[3]))
                return
        sys.exit(f"believed: no public function {name} in {crate}")

    def name(self, module, name):
        """A name that stands in a module."""
        place = Place(module)
        if place.kind:
            self.type(*place.kind[:2], name if place.kind[2] == "TheConstants" else place.kind[2])
        elif place.kit:
            self.kit.setdefault(place.kit, set()).add(name or "all")
        elif place.file and name:
            self.todo.append((place.file, name))

    def type(self, crate, modules, kind):
        """A plain Rust type, with what its model is and the types of its fields; or a constant."""
        found = declaration(crate, modules, f"(?:struct|enum|const) {kind}")
        if not found:
            self.trait(crate, modules, kind)
            return
        path, text = found
        if (path, kind) in self.kinds:
            return
        self.kinds[path, kind] = sum(1 for line in text.split("\n") if line.strip())
        for source in [path, *sources(crate)]:
            code = code_of(source)
            model = re.search(rf"^impl(?:<[^>]*>)? Model for {kind}\b", code, re.M)
            if model:
                inside = block(code, model.start())
                for it in re.finditer(r"\bghost (?:Value|view) = ", inside):
                    self.follow(names_of(code), block(inside, it.start()))
                break
        for word in fields_of(text) - {kind}:
            item = rust_item(path, word, "struct|enum")
            if item:
                self.type(*item[:2], word)

    def trait(self, crate, modules, name):
        """A trait, and what its own text names."""
        found = declaration(crate, modules, f"trait {name}")
        if not found:
            sys.exit(f"believed: no type, constant or trait {name} in {crate}")
        if name not in self.traits.setdefault(found[0], set()):
            self.traits[found[0]].add(name)
            self.follow(names_of(code_of(found[0])), re.sub(r"\bfn \w+", "", found[1]))

    def follow(self, names, text, own=None):
        """All that a text names."""
        text = re.sub(r'"(?:\\.|[^"\\])*"', '""', text)
        for word in set(WORD.findall(text)):
            for it in (word, f"◌{word}◌"):
                if own and it in own.text:
                    self.todo.append((own.path, it))
                elif it in names:
                    self.name(*names[it])
        if " ← " in text and BIND in names:
            self.name(names[BIND][0], BIND)
        for alias, name in MEMBER.findall(text):
            if alias in names and not names[alias][1]:
                self.name(names[alias][0], name)

    def reach(self, path, name):
        file = self.file(path)
        if name in self.reached.get(path, ()):
            return
        if name not in file.text:
            if name in file.names:
                self.name(*file.names[name])
            else:
                # (a constructor, which stands within its type)
                self.todo += [(path, it) for it, its in file.text.items() if re.search(rf"^ +(pub )?{re.escape(name)} :", "\n".join(its), re.M)]
            return
        self.reached.setdefault(path, set()).add(name)
        # The lines of a definition by commands wait for the slice of their command.
        waiting = [(line, command) for line in file.text[name] for command in COMMANDS if self.is_of(file, name, line, command) and command not in self.told]
        for line, command in waiting:
            self.later[command].append((file, line))
        self.follow(file.names, "\n".join(it for it in file.text[name] if it not in {line for line, _ in waiting}), file)

    def is_of(self, file, name, line, command):
        """Whether a line of a definition is its case of a command."""
        found = re.match(rf"^{re.escape(name)} .*?\b(\w+)\.{command}\b.* = ", line.split(" = ")[0] + " = ")
        return bool(found) and Place(file.names.get(found[1], ("", None))[0]).kind is not None


def definition_of(crate, stem, name):
    """The one definition of this name in a file of this name of a crate."""
    found = [it for it in sorted(Path("crates", crate, "specs").rglob(f"{stem}.antt")) if name in File(it).text]
    if len(found) != 1:
        sys.exit(f"believed: {len(found)} definitions {name} in files {stem} of {crate}")
    return found[0], name


def told_of_files(new, files, order):
    """The rows of a slice: each crate with its files, and the lines of each."""
    crates = {}
    for path in sorted(new, key=lambda it: (order.get(it.parts[1], 0), str(it))):
        lines = sum(files[path].lines[name] for name in new[path])
        title = "/".join(path.with_suffix("").parts[3:])
        names = ", ".join(f"`{name}`" for name in files[path].text if name in new[path]) if len(new[path]) <= 2 else ""
        crates.setdefault(path.parts[1], []).append(f"[{title}](../{path}) {lines}" + (f" ({names})" if names else ""))
    return [item(f"{crate}: {', '.join(its)}") for crate, its in crates.items()]


def told_of_types(kinds, order):
    crates = {}
    for path, kind in sorted(kinds, key=lambda it: (order.get(it[0].parts[1], 0), it[1])):
        crates.setdefault(path.parts[1], []).append(f"`{kind}`")
    return "; ".join(f"{', '.join(its)} of {crate}" for crate, its in crates.items())


def slices():
    """Each slice: its title, sentence, rows, lines, files, definitions, and types with their lines; and the whole closure."""
    all_, before, kinds, kit, made = Closure(), {}, set(), {}, []
    traits = set()
    order = {line.split(":")[0].split(" ")[0]: number for number, line in enumerate(Path("crates.txt").read_text(encoding="utf-8").splitlines())}
    for title, how, where, sentence in SLICES:
        all_.begin(how, where)
        new = {path: names - before.get(path, set()) for path, names in all_.reached.items() if names - before.get(path, set())}
        before = {path: set(names) for path, names in all_.reached.items()}
        types = set(all_.kinds) - kinds
        kinds |= types
        kits = {module: names - kit.get(module, set()) for module, names in all_.kit.items() if names - kit.get(module, set())}
        kit = {module: set(names) for module, names in all_.kit.items()}
        asked = set(all_.traits) - traits
        traits |= asked
        rows = told_of_files(new, all_.files, order)
        rows += [item(f"the kit, {module}: {', '.join(f'`{name}`' for name in sorted(names))}") for module, names in sorted(kits.items())]
        made.append({
            "title": title, "sentence": sentence, "rows": rows, "new": new,
            "lines": sum(all_.files[path].lines[name] for path in new for name in new[path]), "files": len(new), "definitions": sum(map(len, new.values())),
            "types": told_of_types(types, order), "type_lines": sum(all_.kinds[it] for it in types),
            "traits": ", ".join(f"[`{word}`](../{path})" for path in sorted(asked) for word in sorted(all_.traits[path])),
        })
    for command, lines in all_.later.items():
        if not lines:
            sys.exit(f"believed: no definition has a line for the command {command}")
    return made, all_


def filled(text):
    return textwrap.fill(text, 120, break_long_words=False, break_on_hyphens=False)


def item(text):
    return textwrap.fill(f"- {text}", 120, subsequent_indent="  ", break_on_hyphens=False, break_long_words=False)


def page_of(made):
    definitions, lines, type_lines = (sum(it[what] for it in made[:-APART]) for what in ("definitions", "lines", "type_lines"))
    files = len({path for it in made[:-APART] for path in it["new"]})
    out = ["# What must be believed", "", filled(
        f"The contract of [`am2`](../crates/am_main/src/top.rt), the one call that `main` makes, rests on {definitions} definitions of this repository: "
        f"{lines} lines in {files} files, and {type_lines} lines of plain Rust types of which these speak (comments, imports and empty lines aside). "
        "Here they stand in slices, with their lines; each lists only what no earlier one has, and after each one can say what is promised so far. On the last two, of `am2_lab`, "
        "the headline doesn't rest. [READING.md](READING.md#definitions) says how a definition is read."), ""]
    out += ["| Slice | Definitions | Lines | Lines so far | Lines of types |", "|---|---|---|---|---|"]
    so_far = 0
    for it in made:
        so_far += it["lines"]
        anchor = re.sub(r"[^\w\- ]", "", it["title"].lower()).replace(" ", "-")
        out.append(f"| [{it['title']}](#{anchor}) | {it['definitions']} | {it['lines']} | {so_far if it in made[:-APART] else 'apart'} | {it['type_lines']} |")
    out += ["", filled(
        "`check/believed.py --write` makes this page, which the gate's checks compare; `--names` prints each definition. It follows what each clause names, each trait that a contract "
        "asks for, each definition, and each type with its model: so no other definition, no lemma, and no code but the declarations of these types and traits is part of the claim. "
        "The definitions of the kit's crates that ours name stand here too, and are trusted with the kit, as is what they name, and its standard library.")]
    for it in made:
        out += ["", f"## {it['title']}", "", filled(it["sentence"]), "", *it["rows"]]
        out += ["", filled(f"Traits that the contract asks for: {it['traits']}.")] if it["traits"] else []
        out += ["", filled(f"Types, read where they are declared: {it['types']}.")] if it["types"] else []
    return "\n".join(out) + "\n"


def main():
    made, all_ = slices()
    page = page_of(made)
    if "--names" in sys.argv:
        for it in made:
            print(f"{it['title']}: {it['lines']} lines")
            for path in sorted(it["new"]):
                print(f"  {path}: {' '.join(name for name in all_.files[path].text if name in it['new'][path])}")
    if "--write" in sys.argv:
        PAGE.write_text(page, encoding="utf-8")
    is_same = PAGE.exists() and PAGE.read_text(encoding="utf-8") == page
    told = ", ".join(f"{it['title']} {it['lines']}" for it in made)
    print(f"believed: lines of definitions: {told}" + ("" if is_same else f"; {PAGE} says otherwise: check/believed.py --write"))
    return 0 if is_same else 1


sys.exit(main())
