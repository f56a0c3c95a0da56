#!/usr/bin/env python3
"""Draws docs/benchmarks.svg: a bar for each figure of the table of docs/BENCHMARKS.md, in a group for each row.

    bench/bars.py            writes the picture
    bench/bars.py --check    compares it, and ends with 1 if it isn't what the table says
"""
import html
import pathlib
import re
import sys

TOP = pathlib.Path(__file__).resolve().parent.parent
PAGE, PICTURE = TOP / "docs/BENCHMARKS.md", TOP / "docs/benchmarks.svg"
WIDTH, NAMES, BARS, HEIGHT = 760, 200, 440, 18
OURS = ("propedit", "propfilter", "Todrenval")
STYLE = "text{font:13px sans-serif;fill:#222}.task{font-weight:bold}.ours{fill:#2a6f97}.other{fill:#b8c4cc}"


def groups():
    """(task, figures) of each row that compares: a figure is its name, its number and its unit."""
    for line in PAGE.read_text().split("\n"):
        cells = [cell.strip() for cell in line.strip("|").split("|")]
        figures = re.findall(r"(?:^|, )(\D*?) ([\d.]+) (ms|s|MB/s|instructions a byte)(?=,|$)", ", ".join(cell for cell in cells[1:] if cell))
        if line.startswith("| ") and len(figures) > 1:
            yield cells[0].replace("`", ""), [(name.replace("`", ""), float(number), unit) for name, number, unit in figures]


def text(x, y, words, kind=""):
    return f'<text x="{x}" y="{y}"{kind}>{html.escape(words)}</text>'


def picture():
    out, y = [], 8
    for task, figures in groups():
        unit = figures[0][2]
        y += HEIGHT
        better = "more is better" if unit == "MB/s" else "less is better"
        out.append(text(8, y, f"{task[0].upper()}{task[1:]} ({unit}; {better})", ' class="task"'))
        most = max(number for _, number, _ in figures)
        for name, number, _ in figures:
            y += HEIGHT
            width = max(1, round(BARS * number / most))
            kind = "ours" if name.startswith(OURS) else "other"
            out.append(text(20, y, name))
            out.append(f'<rect class="{kind}" x="{NAMES}" y="{y - 11}" width="{width}" height="12"/>')
            out.append(text(NAMES + width + 6, y, f"{number:g}"))
        y += HEIGHT // 2
    head = f'<svg xmlns="http://www.w3.org/2000/svg" width="{WIDTH}" height="{y + 8}" viewBox="0 0 {WIDTH} {y + 8}">'
    return "\n".join([head, f"<style>{STYLE}</style>", '<rect width="100%" height="100%" fill="#fff"/>', *out, "</svg>"]) + "\n"


def main():
    if "--check" not in sys.argv[1:]:
        PICTURE.write_text(picture())
    elif not PICTURE.exists() or PICTURE.read_text() != picture():
        print("docs/benchmarks.svg is not what docs/BENCHMARKS.md says: run bench/bars.py")
        return 1
    return 0


if __name__ == "__main__":
    sys.exit(main())
