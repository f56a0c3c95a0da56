#!/usr/bin/env python3
"""Draws docs/architecture.svg, the picture that docs/ARCHITECTURE.md begins with: the crates, and the way of the data.

    tools/architecture.py            draws it
    tools/architecture.py --check    compares it, and ends with 1 if it isn't what this script would draw

The crates, and what each uses, are those of crates.txt: a crate stands above those that it uses. A line joins two crates unless
others lead from one to the other. The tables below say what a crate is for, where in its row it stands, and which crates the
data comes through.
"""
import pathlib
import sys
from xml.sax.saxutils import escape

TOP = pathlib.Path(__file__).resolve().parent.parent
PICTURE = TOP / "docs/architecture.svg"

# Each crate: its column, its kind, and what it is for.
CRATES = {
    "counted_io": (0, "library", "streams that count I/O errors"),
    "properties_format": (1, "mathematics", "the format, defined"),
    "byte_blocks": (2, "library", "sixteen bytes at once"),
    "properties_text": (1, "library", "encodings, escapes, printing"),
    "properties_lines": (1, "library", "the lines of a reader"),
    "properties_items": (1, "library", "comments and pairs, errors"),
    "single_lines": (2, "test", "a plain reader, to compare"),
    "properties_editing": (1, "library", "edits of a source"),
    "properties_renaming": (1, "library", "edits over a view"),
    "java_properties": (1, "public", "the library"),
    "properties_c": (0, "public", "the library for C"),
    "properties_tables": (1, "library", "what commands read"),
    "properties_checking": (2, "library", "what is wrong in a file"),
    "properties_changing": (0, "library", "a file changed in place"),
    "properties_tools": (1, "library", "what the programs do"),
    "properties_tests": (2, "test", "tests of the library"),
    "vector_notation": (3, "test", "rows of examples"),
    "*_vectors": (3, "test", "examples: read, write, edit"),
    "calling": (0, "test", "the examples of the pages"),
    "propedit_arguments": (1, "library", "the arguments of propedit"),
    "propedit_running": (1, "library", "what propedit does"),
    "propfilter": (2, "public", "a program"),
    "propedit": (1, "public", "a program"),
    "program_vectors": (3, "test", "rows of propedit"),
    "program_tests": (2, "test", "tests of the programs"),
}
# Crates that share a box, under this name.
SHARED = {"reading_vectors": "*_vectors", "writing_vectors": "*_vectors", "editing_vectors": "*_vectors"}
KINDS = {
    "public": "for users",
    "library": "parts of these",
    "mathematics": "definitions and their laws",
    "test": "tests and examples",
}
# Each way: what comes in, the steps with their crates, and what comes out.
WAYS = [
    ("Reading", "a reader", [
        ("counts I/O errors", "counted_io"), ("finds and joins lines", "properties_lines"),
        ("comment or pair", "properties_items"), ("line numbers, errors", "java_properties"),
    ], "items"),
    ("Writing", "calls", [
        ("settings, one line", "java_properties"), ("encodes and escapes", "properties_text"),
        ("sends the line", "counted_io"),
    ], "a sink"),
    ("Editing", "bytes, edits", [
        ("finds the lines", "properties_lines"), ("cuts into parts", "properties_editing"),
        ("prints new texts", "properties_text"), ("joins the parts", "properties_editing"),
    ], "bytes"),
    ("Converting", "bytes", [
        ("decodes", "properties_text"), ("spells again", "properties_text"), ("checks the front", "properties_text"),
    ], "bytes"),
    ("propedit", "arguments", [
        ("makes a request", "propedit_arguments"), ("reads the source", "java_properties"),
        ("answers", "properties_tools"), ("prints, or replaces", "properties_tools"),
    ], "a status"),
]

WIDTH, MARGIN = 880, 20
BOX, HIGH, ROW = 190, 40, 62
COLUMN = (WIDTH - 2 * MARGIN - BOX) // 3
STEP, END, LANE = 136, 78, 58

STYLE = """
  .page { fill: #ffffff }
  text { font: 12px system-ui, "Segoe UI", Roboto, "Noto Sans", sans-serif; fill: #1f2328; text-anchor: middle }
  .name { font: 600 12px ui-monospace, "DejaVu Sans Mono", Menlo, monospace }
  .crate { font: 11px ui-monospace, "DejaVu Sans Mono", Menlo, monospace }
  .head { font-size: 15px; font-weight: 600; text-anchor: start }
  .left { text-anchor: start }
  .way { font-weight: 600; text-anchor: start }
  rect { rx: 6px; stroke-width: 1.2px }
  .public { fill: #ddf4ff; stroke: #0969da }
  .library { fill: #f6f8fa; stroke: #6e7781 }
  .mathematics { fill: #fbefff; stroke: #8250df }
  .test { fill: #dafbe1; stroke: #1a7f37 }
  .line { fill: none; stroke: #6e7781; stroke-width: 1.2px }
  .tip { fill: #6e7781 }
  @media (prefers-color-scheme: dark) {
    .page { fill: #0d1117 }
    text { fill: #e6edf3 }
    .public { fill: #0c2d4d; stroke: #58a6ff }
    .library { fill: #21262d; stroke: #8b949e }
    .mathematics { fill: #2b1d4a; stroke: #bc8cff }
    .test { fill: #12301c; stroke: #3fb950 }
    .line { stroke: #8b949e }
    .tip { fill: #8b949e }
  }
"""


def uses():
    """What each crate of crates.txt uses of the others there."""
    listed = {}
    for line in (TOP / "crates.txt").read_text().splitlines():
        if ":" in line and not line.startswith("#"):
            front, used = line.split(":", 1)
            crate = front.split()[0]
            listed.setdefault(SHARED.get(crate, crate), {}).update(dict.fromkeys(used.split()))
    return {crate: [name for name in used if name in listed] for crate, used in listed.items()}


def below(crate, used):
    """All crates that a crate stands on."""
    found = set(used[crate])
    for name in used[crate]:
        found |= below(name, used)
    return found


def level(crate, used):
    return 1 + max((level(name, used) for name in used[crate]), default=-1)


def text(x, y, words, kind=""):
    return f'<text{f" class={chr(34)}{kind}{chr(34)}" if kind else ""} x="{x}" y="{y}">{escape(words)}</text>'


def box(x, y, width, kind):
    return f'<rect class="{kind}" x="{x}" y="{y}" width="{width}" height="{HIGH}"/>'


def places(used):
    """Where the box of each crate is: the crates of a row that have no column of their own come last."""
    top = max(level(crate, used) for crate in used)
    at, taken = {}, set()
    for crate in sorted(used, key=lambda name: (name not in CRATES, name)):
        row = top - level(crate, used)
        column = CRATES[crate][0] if crate in CRATES else 0
        while (row, column) in taken:
            column += 1
        taken.add((row, column))
        at[crate] = (MARGIN + column * COLUMN, MARGIN + 46 + row * ROW)
    return at


def crates(used):
    at = places(used)
    for crate, (x, y) in at.items():
        for name in used[crate]:
            if not any(name in below(other, used) for other in used[crate]):
                to_x, to_y = at[name][0] + BOX // 2, at[name][1]
                from_x, from_y = x + BOX // 2, y + HIGH
                # A line that passes rows bends at once, so that it goes down in the column of the crate that it leads to.
                bend = from_y + ROW - HIGH
                yield (
                    f'<path class="line" d="M {from_x} {from_y} C {from_x} {from_y + 14}, {to_x} {bend - 14},'
                    f' {to_x} {bend} L {to_x} {to_y}"/>'
                )
    for crate, (x, y) in at.items():
        _, kind, words = CRATES.get(crate, (0, "library", ""))
        yield box(x, y, BOX, kind)
        yield text(x + BOX // 2, y + (17 if words else 24), crate, "name")
        if words:
            yield text(x + BOX // 2, y + 32, words)


def ways(y):
    for way, given, steps, result in WAYS:
        x = MARGIN + 84
        yield text(MARGIN, y + 24, way, "way")
        for words, crate in [(given, ""), *steps, (result, "")]:
            width = STEP if crate else END
            if crate:
                yield box(x, y, width, CRATES[crate][1])
                yield text(x + width // 2, y + 17, words)
                yield text(x + width // 2, y + 32, crate, "crate")
            else:
                yield text(x + width // 2, y + 24, words)
            if (words, crate) != (result, ""):
                yield f'<path class="tip" d="M {x + width + 2} {y + 16} l 7 4 l -7 4 z"/>'
            x += width + 11
        y += LANE


def picture():
    used = uses()
    rows = 1 + max(level(crate, used) for crate in used)
    bottom = MARGIN + 46 + rows * ROW
    middle = bottom + 16
    width = max([WIDTH, *(x + BOX + MARGIN for x, _ in places(used).values())])
    high = middle + 30 + len(WAYS) * LANE
    parts = [text(MARGIN, MARGIN + 16, "The crates: each uses those below it that lines lead to", "head")]
    x, y = MARGIN + 3 * COLUMN, bottom - 22 * len(KINDS) - 14
    for number, (kind, words) in enumerate(KINDS.items()):
        parts.append(f'<rect class="{kind}" x="{x}" y="{y + 22 * number}" width="16" height="14"/>')
        parts.append(text(x + 24, y + 22 * number + 11, words, "left"))
    parts += crates(used)
    parts.append(text(MARGIN, middle + 8, "The way of the data: each step, and the crate that makes it", "head"))
    parts += ways(middle + 24)
    inside = "\n".join(parts)
    return (
        f'<svg xmlns="http://www.w3.org/2000/svg" viewBox="0 0 {width} {high}" width="{width}" height="{high}" role="img">\n'
        "<title>The crates, and the way of the data</title>\n"
        f'<style>{STYLE}</style>\n<rect class="page" width="{width}" height="{high}"/>\n{inside}\n</svg>\n'
    )


def main():
    used = uses()
    for crate in [crate for _, _, steps, _ in WAYS for _, crate in steps]:
        if crate not in used:
            sys.exit(f"tools/architecture.py: crates.txt has no {crate}")
    if "--check" in sys.argv[1:]:
        is_same = PICTURE.exists() and PICTURE.read_text() == picture()
        print(f"docs/architecture.svg {'shows' if is_same else 'does NOT show'} the crates of crates.txt")
        return 0 if is_same else 1
    PICTURE.write_text(picture())
    return 0


if __name__ == "__main__":
    sys.exit(main())
