#!/usr/bin/env python3
"""Compares the comments that propedit prints with those of a reader of its own, on 2,000 random files, or
on HOW_MANY of them from file FIRST on.

    tests/try_comment.py PROPEDIT [HOW_MANY [FIRST]]

The comment of a key is the comment lines directly above its last pair, down from the last separator of documents. A line that a backslash before it continues is
none, and neither is one that joining makes. A text is what follows the sign and one blank. A file with a malformed
escape in a pair is refused.
"""
import itertools
import random
import re
import subprocess
import sys

REFUSED = "refused"
KEYS = ["a", "b", "a b", "é", "", "#"]
BLANKS = " \t\f"
ENDS = ["\n", "\r", "\r\n"]
LINES = ["", "", " \t", "#", "! ", "# one", "  #  two ", "!\tC:\\users", "# ends \\", "#é \\u12", "#---", "#---", "!---", "#---\t ", " #---", "\\", "  \\", "c = 1", "c \\", "a:1", "# no=1"]
SPELT = {"a": ["a", "\\u0061", "\\a"], "b": ["b"], "a b": ["a\\ b"], "é": ["é", "\\u00e9"], "": [""], "#": ["\\#"]}


def source(draw):
    """A file, and the keys of its pairs."""
    lines, keys = [], []
    for _ in range(draw.randrange(1, 9)):
        if draw.random() < 0.6:
            lines.append(draw.choice(LINES))
        else:
            keys.append(draw.choice(KEYS))
            key = draw.choice(SPELT[keys[-1]])
            lines.append(draw.choice(["", "  "]) + key + draw.choice(["=", " : "]) + draw.choice(["", "1", "x\\", "# y"]))
    return "".join(line + draw.choice(ENDS) for line in lines[:-1]) + lines[-1] + draw.choice(["", *ENDS]), keys


def is_open(line):
    return (len(line) - len(line.rstrip("\\"))) % 2 == 1


def groups(text):
    """The natural lines of each logical line."""
    found = [[]]
    for line in re.split("\r\n|\r|\n", text):
        is_comment = not found[-1] and line.lstrip(BLANKS)[:1] in ("#", "!")
        found[-1].append(line)
        if is_comment or not is_open(line):
            found.append([])
    return found if found[-1] else found[:-1]


def joined(group):
    """The logical line of lines that are no comment line."""
    parts = [line[:-1] if is_open(line) else line for line in group]
    return parts[0] + "".join(part.lstrip(BLANKS) for part in parts[1:])


def key_of(line):
    """The key of a logical line, or None if it is blank or a comment."""
    line = line.lstrip(BLANKS)
    if not line or line[0] in "#!":
        return None
    spelt = re.match(r"(?:\\.|[^\\ \t\f=:])*", line, re.S)[0]
    return re.sub(r"\\(?:u([0-9a-f]{4})|(.))", lambda m: chr(int(m[1], 16)) if m[1] else m[2], spelt, flags=re.S)


def is_malformed(line):
    """Whether an escape of a logical line is malformed."""
    return any(escape == "u" for escape in re.findall(r"\\(u[0-9a-f]{4}|.)", line, re.S))


def below_separators(lines):
    """The last of these comment lines, down from the last separator of documents among them."""
    below = []
    for _, run in itertools.groupby(lines, lambda line: line.lstrip(" \t\f")[0]):
        run = list(run)
        below = [] if all(re.fullmatch("[#!]---[ \t\f]*", line.rstrip("\r\n")) for line in run) else below + run
    return below


def comment(text, key):
    """The texts of the comment of a key, or None if no pair has it; or that the file is refused."""
    above, found = [], None
    for group in groups(text):
        if group[0].lstrip(BLANKS)[:1] in ("#", "!"):
            above.append(group[0])
            continue
        name = key_of(joined(group))
        if name is not None and is_malformed(joined(group)):
            return REFUSED
        if name == key:
            firsts = [line.lstrip(BLANKS) for line in below_separators(above)]
            found = [first[2:] if first[1:2] in tuple(BLANKS) else first[1:] for first in firsts]
        above = []
    return found


def main():
    told = {"refused": 0, "none": 0, "empty": 0, "texts": 0}
    for number in range(FIRST, FIRST + HOW_MANY):
        draw = random.Random(number)
        text, keys = source(draw)
        key = draw.choice(keys if keys and draw.random() < 0.8 else KEYS)
        done = subprocess.run(
            [PROPEDIT, "comment", "--", key], input=text.encode(), stdout=subprocess.PIPE, stderr=subprocess.DEVNULL, check=False
        )
        texts = comment(text, key)
        wanted = (2, b"") if texts is REFUSED else (1, b"") if texts is None else (0, "".join(t + "\n" for t in texts).encode())
        if (done.returncode, done.stdout) != wanted:
            sys.exit(f"file {number}, {text!r}, {key!r}: {done.returncode, done.stdout}, and not {wanted}")
        told["refused" if texts is REFUSED else "none" if texts is None else "texts" if texts else "empty"] += 1
    print(f"{HOW_MANY} files:", ", ".join(f"{count} {what}" for what, count in told.items()))


if len(sys.argv) not in (2, 3, 4):
    sys.exit(__doc__)
PROPEDIT = sys.argv[1]
HOW_MANY, FIRST = [*map(int, sys.argv[2:]), *(2000, 0)[len(sys.argv) - 2 :]]
main()
