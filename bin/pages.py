#!/usr/bin/env python3
"""pages.py NAME PAGE: prints the manual page of a program, made of a page of docs/; its help is read from standard input, and stands in front."""
import re
import sys

# What the pages have within a line, in the order in which it is looked for: code, bold, a picture, a link, emphasis.
WITHIN = re.compile(r"`([^`]+)`|\*\*([^*]+)\*\*|!\[([^\]]*)\]\([^)]*\)|\[([^\]]+)\]\([^)]*\)|\*([^*\s][^*]*)\*", re.S)


def plain(text):
    """A text whose backslashes, hyphens and quotes are themselves."""
    return text.replace("\\", "\\e").replace("-", "\\-").replace("'", "\\(aq").replace("`", "\\(ga").replace("^", "\\(ha").replace("~", "\\(ti").replace("×", "\\(mu")


def within(text):
    """A text with its code and bold words in bold, what is emphasized in italics, and of links their words."""
    found, at = "", 0
    for it in WITHIN.finditer(text):
        code, bold, picture, link, slanted = it.groups()
        found += plain(text[at : it.start()])
        at = it.end()
        if link is not None:
            found += within(link)
        elif slanted is not None:
            found += f"\\fI{plain(slanted)}\\fR"
        elif picture is None:
            found += f"\\fB{plain(code or bold.replace('`', ''))}\\fR"
    return found + plain(text[at:])


def shown(text):
    """A text for a line of its own: one that begins with a point or a quote isn't a request."""
    text = text.replace("\n", " ").strip()
    return "\\&" + text if text[:1] in (".", "'") else text


def cells(line):
    """The cells of a line of a table."""
    return [it.replace("\\|", "|").strip() for it in re.split(r"(?<!\\)\|", line.strip().strip("|"))]


def table(lines):
    """A table as a list: the first cell of each row, and the others under it."""
    rows = [cells(it) for it in lines if not re.fullmatch(r"[|\-: ]+", it)]
    heads = rows[0]
    yield ".PP"
    yield shown(within("; ".join(it for it in heads if it))) + ":"
    for row in rows[1:]:
        yield ".TP"
        yield shown(within(row[0])) or "\\&"
        yield shown("; ".join(within(it) for it in row[1:] if it)) or "\\&"


def verbatim(lines):
    yield from (".PP", ".RS 4", ".nf")
    yield from ("\\&" + plain(it) for it in lines)
    yield from (".fi", ".RE")


def block(lines):
    """What a block of lines without an empty one comes to."""
    first = lines[0]
    if head := re.match(r"(#+) +(.*)", first):
        level = len(head[1])
        yield f".S{'H' if level < 3 else 'S'} {shown(within(head[2].upper() if level < 3 else head[2]))}"
        if lines[1:]:
            yield from block(lines[1:])
    elif first.startswith("|"):
        yield from table(lines)
    elif first.startswith("    "):
        yield from verbatim(it[4:] for it in lines)
    elif re.match(r"- |\d+\. ", first):
        for item in re.split(r"\n(?=- |\d+\. )", "\n".join(lines)):
            mark, _, text = item.partition(" ")
            yield ".IP " + ("\\(bu 2" if mark == "-" else f"{mark} 4")
            yield shown(within(re.sub(r"\n +", "\n", text)))
    else:
        yield ".PP"
        yield shown(within("\n".join(lines)))


def blocks(text):
    """The lines of a page, cut at empty ones; a fenced block is one, with its first line."""
    fenced = re.split(r"^```[^\n]*\n(.*?)^```$", text, flags=re.M | re.S)
    for number, part in enumerate(fenced):
        if number % 2:
            yield True, part.splitlines()
            continue
        for it in re.split(r"\n\s*\n", part):
            if it.strip():
                yield False, it.strip("\n").splitlines()


def page(name, text, help_text):
    title, _, rest = text.partition("\n")
    yield f'.TH {name.upper()} 1 "" "am2" "{plain(re.sub("[`#]", "", title).strip())}"'
    yield from (".SH NAME", f"{plain(name)} \\- {'Active Messages II on a simulated cluster' if name == 'am2' else 'tells what stands in a report of am2'}")
    yield ".SH SYNOPSIS"
    yield from verbatim(help_text.splitlines())
    yield ".SH DESCRIPTION"
    for is_fenced, lines in blocks(rest):
        yield from verbatim(lines) if is_fenced else block(lines)


def main(name, path):
    with open(path, encoding="utf-8") as text:
        print(*page(name, text.read(), sys.stdin.read()), sep="\n")


if __name__ == "__main__":
    main(*sys.argv[1:])
