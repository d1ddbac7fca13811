#!/usr/bin/env python3
"""Each word that docs/TEXTS.md says may be printed stands in the text of docs/MANUAL.md too, as printed: where a reader finds when it comes."""
import re
import sys

BLOCK = re.compile(r"^```.*?^```$", re.M | re.S)
SPAN = re.compile(r"`([^`\n]+)`")
WORD = re.compile(r"(?<![\w-])[a-z][a-z0-9]+(?:-[a-z]+)*(?![\w])")


def printed_words(path):
    """The words of what stands between backticks, but for blocks, paths and names of code."""
    with open(path, encoding="utf-8") as page:
        text = BLOCK.sub("", page.read())
    return {word for span in SPAN.findall(text) if not re.search(r"[/_(]", span) for word in WORD.findall(span)}


def main():
    wanted, told = printed_words("docs/TEXTS.md"), printed_words("docs/MANUAL.md")
    for word in sorted(wanted - told):
        print(f"docs/TEXTS.md has `{word}`, and docs/MANUAL.md doesn't say when it is printed")
    print(f"words: {len(wanted)} of docs/TEXTS.md, {len(wanted - told)} not in docs/MANUAL.md")
    return 1 if wanted - told or len(wanted) < 50 else 0


if __name__ == "__main__":
    sys.exit(main())
