#!/usr/bin/env python3
"""Writes the manual pages docs/propedit.1 and docs/propfilter.1 from docs/PROPEDIT.md and docs/PROPFILTER.md.

    tools/manual.py            writes the manual pages
    tools/manual.py --check    compares them, and ends with 1 where one is not what its page says

What stands before a page's first section is left out. A point that begins with code and a colon is an entry of a list of
terms, and so is a row of a table: its first cell, and what the others say. The version and the date are those of CHANGELOG.md.
"""
import pathlib
import re
import sys

TOP = pathlib.Path(__file__).resolve().parent.parent
PAGES = {"PROPEDIT.md": "propedit", "PROPFILTER.md": "propfilter"}
PLACEHOLDER = re.compile(
    r"\b((?:ARGUMENT|COMMAND|EDIT|ENCODING|FILE|KEY|KIND|LINE|NAME|NEW|OLD|OPTION|PAIR|PREFIX|REASON|TEXT|VALUE)s?)\b"
)
# What is typed, or printed in bold.
CODE = re.compile(r"(`[^`]+`|\*\*[^*`]+\*\*)")
TERM = re.compile("- ((?:`[^`]+`)(?:, `[^`]+`)*): (.*)")
SENTENCE_END = re.compile(r"(?<=[\w)`]\.) (?=[A-Z`])")
SHORT = 40
SPECIAL = {"\\": r"\(rs", "~": r"\(ti", "^": r"\(ha", "`": r"\(ga"}


def escaped(text, literal):
    """Text as roff prints it. In what is typed literally, a dash and a quote are those of ASCII."""
    special = SPECIAL | ({"-": r"\-", "'": r"\(aq"} if literal else {})
    return "".join(special.get(c, c if c < "\x7f" else f"\\[u{ord(c):04X}]") for c in text)


def with_placeholders(text, font, literal):
    parts = PLACEHOLDER.split(text)
    return "".join(rf"\fI{part}\f{font}" if at % 2 else escaped(part, literal) for at, part in enumerate(parts))


def inline(text):
    """Prose: code is bold, and what stands for a word of the caller's is italic."""
    out = ""
    for part in CODE.split(text):
        if part.startswith("**"):
            out += r"\fB" + with_placeholders(part[2:-2], "B", False) + r"\fR"
        elif CODE.fullmatch(part):
            typed = with_placeholders(part[1:-1], "B", True)
            # A blank of short code neither ends a line nor is stretched.
            out += r"\fB" + (typed.replace(" ", r"\ ") if len(part) <= SHORT else typed) + r"\fR"
        else:
            page = re.sub(r"\b(prop\w+)\((\d)\)", "\0\\1\1(\\2)", part)
            out += with_placeholders(page, "R", False).replace("\0", r"\fB").replace("\1", r"\fR")
    return out.replace(r"\fB\fR", r"\fR")


def guarded(line):
    """A line of text that roff doesn't take for a request."""
    return r"\&" + line if line.startswith((".", "'")) else line


def prose(text):
    """One sentence a line."""
    return [guarded(inline(sentence)) for sentence in SENTENCE_END.split(text)]


def code(lines):
    out = [".PP", ".RS 4", ".EX"]
    out += [guarded(escaped(line[4:], True)) for line in lines]
    return out + [".EE", ".RE"]


def synopsis(lines):
    out = [".nf"]
    for line in lines:
        out.append(guarded(re.sub(r"(?<![\w\\])(\w[\w-]*|--\w+)", mark_word, line[4:])))
    return out + [".fi"]


def mark_word(found):
    word = found[0]
    return rf"\fI{word}\fR" if PLACEHOLDER.fullmatch(word) else r"\fB" + escaped(word, True) + r"\fR"


def table(lines):
    """The rows after the heads of the columns, each as an entry of a list of terms."""
    out = []
    for line in lines[2:]:
        term, *meaning = (cell.strip() for cell in line.strip("| ").split(" | "))
        out += [".TP", inline(term)] + prose(" ".join(meaning))
    return out


def blocks(text):
    """The blocks of a page: a heading, a paragraph, a point of a list, or lines of code."""
    taken = []
    for line in text.splitlines() + [""]:
        if taken and (not line.strip() or line.startswith(("#", "- "))):
            yield taken
            taken = []
        if line.strip():
            taken.append(line)


def manual(page, name):
    text = (TOP / "docs" / page).read_text()
    version, date = re.search(r"^## (\d+\.\d+\.\d+), (\S+)$", (TOP / "CHANGELOG.md").read_text(), re.M).groups()
    out = [rf'.\" Made by tools/manual.py from docs/{page}.']
    out.append(f'.TH {name.upper()} 1 {date} "Todrenval {version}" "User Commands"')
    # Lines aren't stretched to the right margin, and no word is divided: that would change what code looks like.
    out += [".ad l", ".nh"]
    section = ""
    for lines in blocks(text[text.index("\n## ") :]):
        body = " ".join(line.strip() for line in lines)
        if body.startswith("### "):
            out.append(".SS " + escaped(body[4:], False))
        elif body.startswith("## "):
            section = body[3:]
            out.append(".SH " + escaped(section.upper(), False))
        elif lines[0].startswith("    "):
            out += synopsis(lines) if section == "Synopsis" else code(lines)
        elif lines[0].startswith("|"):
            out += table(lines)
        elif section == "Name":
            out.append(escaped(body, False).replace(" - ", r" \- ", 1))
        elif TERM.fullmatch(body):
            term, meaning = TERM.fullmatch(body).groups()
            out += [".TP", inline(term)] + prose(meaning)
        elif body.startswith("- "):
            out += [r".IP \(bu 2"] + prose(body[2:])
        else:
            out += ([] if out[-1].startswith(".S") else [".PP"]) + prose(body)
    return "\n".join(out) + "\n"


def main():
    status = 0
    for page, name in PAGES.items():
        target = TOP / "docs" / f"{name}.1"
        text = manual(page, name)
        if "--check" not in sys.argv[1:]:
            target.write_text(text)
        elif target.exists() and target.read_text() == text:
            print(f"docs/{name}.1 is what docs/{page} says")
        else:
            print(f"docs/{name}.1 is not what docs/{page} says: run tools/manual.py")
            status = 1
    return status


if __name__ == "__main__":
    sys.exit(main())
