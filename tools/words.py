#!/usr/bin/env python3
"""Counts in the pages the words that docs/STYLE.md replaces.

    tools/words.py            prints how often each occurs
    tools/words.py --check    names the places of those that no page may have, and ends with 1 if there is one

A row of the first table of STYLE.md has a pattern of Python's re in backquotes, and what to write instead: no page may have it.
One of the second table may occur. Code, made pages and STYLE.md itself aren't looked at. Lines of a paragraph are joined first.
"""
import pathlib
import re
import sys

TOP = pathlib.Path(__file__).resolve().parent.parent
STYLE = TOP / "docs/STYLE.md"
MADE = (STYLE, TOP / "docs/API.md")


def rows():
    """(pattern, whether it is refused) of each row."""
    tables = STYLE.read_text().split("| now | write |")
    for at, table in enumerate(tables[1:]):
        for pattern in re.findall(r"^\| `((?:[^`\\]|\\.)+)` \|", table, re.M):
            yield re.compile(pattern.replace(r"\|", "|")), at == 0


def paragraphs(page):
    """(line number, prose) of each paragraph: without code, and in one line."""
    taken, first, fenced = [], 0, False
    for number, line in enumerate(page.read_text().split("\n") + [""], 1):
        if line.startswith("```"):
            fenced = not fenced
        if fenced or not line.strip() or line.startswith(("```", "    ", "|", "- ")):
            if taken:
                yield first, re.sub(r"`[^`]*`", "` `", " ".join(taken))
            taken = []
        if not (fenced or not line.strip() or line.startswith(("```", "    "))):
            first = first if taken else number
            taken.append(line.strip())


def pages():
    found = [*TOP.glob("*.md"), *TOP.glob("docs/*.md"), *TOP.glob("bench/*.md")]
    return sorted(page for page in found if page not in MADE)


def main():
    is_check, status = "--check" in sys.argv[1:], 0
    texts = [(page, first, prose) for page in pages() for first, prose in paragraphs(page)]
    for pattern, is_refused in rows():
        places = [(page, first, found[0]) for page, first, prose in texts for found in pattern.finditer(prose)]
        if not is_check:
            print(f"{len(places):4} {pattern.pattern}")
        elif is_refused:
            for page, first, words in places:
                print(f"{page.relative_to(TOP)}:{first}: '{words}': see docs/STYLE.md")
                status = 1
    return status


if __name__ == "__main__":
    sys.exit(main())
