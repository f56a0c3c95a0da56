#!/usr/bin/env python3
"""Wraps the prose of the Markdown pages at one width, and leaves code, tables, headings and quotes as they are.

    tools/wrap.py            wraps all pages
    tools/wrap.py --check    names the pages that aren't wrapped so, and rows of tables that are too long to read, and ends with 1
                             if there is one
"""
import pathlib
import re
import sys
import textwrap

TOP = pathlib.Path(__file__).resolve().parent.parent
WIDTH = 118
ROW = 200
MARKER = re.compile(r"\s*(?:[-*]|\d+\.) ")


def filled(lines):
    """One paragraph, or one point of a list."""
    marker = MARKER.match(lines[0])
    front = marker[0] if marker else ""
    # Code isn't broken, and keeps its blanks.
    text = re.sub("`[^`]*`", lambda code: code[0].replace(" ", "\0"), " ".join(line.strip() for line in lines))
    text = " ".join(text.split())[len(front.strip()) :].strip()
    rows = textwrap.wrap(
        text, WIDTH, initial_indent=front, subsequent_indent=" " * len(front), break_long_words=False, break_on_hyphens=False
    )
    return [row.replace("\0", " ") for row in rows]


def wrapped(text):
    out, taken, in_code = [], [], False

    def end():
        if taken:
            out.extend(filled(taken))
            taken.clear()

    for line in text.split("\n"):
        if line.startswith("```"):
            end()
            in_code = not in_code
            out.append(line)
        elif in_code or not line.strip() or line.startswith(("#", "|", ">")) or (line.startswith("    ") and not taken):
            end()
            out.append(line)
        else:
            if MARKER.match(line):
                end()
            taken.append(line)
    end()
    return "\n".join(out)


def main():
    status = 0
    for path in sorted([*TOP.glob("*.md"), *TOP.glob("docs/*.md"), *TOP.glob("bench/*.md")]):
        text = path.read_text()
        if "--check" in sys.argv[1:]:
            for number, line in enumerate(text.split("\n"), 1):
                if line.startswith("|") and len(line) >= ROW:
                    print(f"{path.relative_to(TOP)}:{number}: a row of {len(line)} characters")
                    status = 1
        if text != wrapped(text):
            if "--check" in sys.argv[1:]:
                print(path.relative_to(TOP), "isn't wrapped")
                status = 1
            else:
                path.write_text(wrapped(text))
    return status


if __name__ == "__main__":
    sys.exit(main())
