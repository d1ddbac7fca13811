#!/usr/bin/env python3
"""Each link of README.md and docs/ that leads into the repository leads to a file or a folder, and where it has an anchor, to a heading of that file."""
import glob
import os
import re
import sys

LINK = re.compile(r"\[[^\]]*\]\(([^)\s]+)\)")
HEADING = re.compile(r"^#+ +(.*)$", re.M)
CODE = re.compile(r"^```.*?^```$|`[^`\n]*`", re.M | re.S)


def text_of(path):
    """The page without its blocks of code."""
    with open(path, encoding="utf-8") as page:
        return re.sub(r"^```.*?^```$", "", page.read(), flags=re.M | re.S)


def anchors(path):
    """The anchors of a page's headings: lower-case, without punctuation, with hyphens for spaces; a heading that stands again gets a number."""
    found = {}
    for heading in HEADING.findall(text_of(path)):
        anchor = re.sub(r"[^\w\- ]", "", heading.lower()).replace(" ", "-")
        found[anchor] = found.get(anchor, 0) + 1
    return {f"{anchor}-{again}" if again else anchor for anchor, times in found.items() for again in range(times)}


def fault(page, link):
    """What is wrong with a link of a page, if anything."""
    path, _, anchor = link.partition("#")
    target = os.path.normpath(os.path.join(os.path.dirname(page), path)) if path else page
    if not os.path.exists(target):
        return "there is no such file"
    if anchor and (not target.endswith(".md") or anchor not in anchors(target)):
        return "there is no such heading"
    return None


def main():
    tried, wrong = 0, []
    for page in ["README.md", *sorted(glob.glob("docs/*.md"))]:
        for link in LINK.findall(CODE.sub("", text_of(page))):
            if not re.match(r"[a-z]+:", link):
                tried += 1
                why = fault(page, link)
                wrong += [f"{page}: {link}: {why}"] if why else []
    print(*wrong, f"links: {tried} tried, {len(wrong)} dead", sep="\n")
    return 1 if wrong or tried < 50 else 0


if __name__ == "__main__":
    sys.exit(main())
