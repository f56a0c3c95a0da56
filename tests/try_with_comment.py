#!/usr/bin/env python3
"""Compares what `propedit remove --with-comment` leaves with files that this script puts together from parts, on 2,000
random files, or on HOW_MANY of them from file FIRST on.

    tests/try_with_comment.py PROPEDIT [HOW_MANY [FIRST]]

Each pair with the key goes, with the comment lines directly above it, down from the last separator of documents. All else
stays. With -x, a key that no pair has
is refused. Keys that are removed one after another are left out at once, and a list of edits gives what its runs of
removals and its other edits give one after another.
"""
import itertools
import random
import re
import subprocess
import sys

KEYS = ["a", "b", "é", "a b", "", "#", "\ufeffk"]
SEPARATORS = ["=", " = ", ":\\\n  "]
VALUES = ["", "1", "x\\\n  # y", "# no", "C:\\\\tmp", "\\u00e9"]
COMMENTS = ["# one", "  ! \\u12", "#", "# of \\", "\t!!", "#---", "#---", "!---", "!--- \t"]
# Blank lines, and a comment that joining lines makes: between a pair and comment lines above them, these aren't its own.
OTHERS = ["", " \t", "\\\n# no", "  \\\n\\\n! no"]
ENDS = ["\n", "\r\n", "\r"]


def propedit(*words, data):
    """The status, what propedit prints, and its message."""
    done = subprocess.run([PROPEDIT, *words], input=data, stdout=subprocess.PIPE, stderr=subprocess.PIPE, check=False)
    return done.returncode, done.stdout, done.stderr


def spelt(key):
    return "".join(f"\\u{ord(c):04x}" if c == "\ufeff" else "\\" + c if c in " #" else c for c in key)


def drawn_file(draw):
    """The groups of lines of a file: each its kind, which is the key of a pair, in a list, and its text."""
    groups = []
    for _ in range(draw.randrange(1, 9)):
        what, end = draw.random(), draw.choice(ENDS)
        if what < 0.4:
            groups.append(("comment", draw.choice(COMMENTS) + end))
        elif what < 0.55:
            # An empty line that ends in LF would end a line that ends in CR.
            after_cr = groups and groups[-1][1].endswith("\r")
            groups.append(("other", draw.choice(OTHERS[1:] if after_cr else OTHERS) + end))
        else:
            key = draw.choice(KEYS)
            groups.append(([key], spelt(key) + draw.choice(SEPARATORS) + draw.choice(VALUES) + end))
    if draw.random() < 0.3:
        kind, text = groups[-1]
        groups[-1] = (kind, text.rstrip("\r\n"))
    return groups


def whole(groups):
    return "".join(text for _, text in groups).encode()


def below_separators(lines):
    """The last of these comment lines, down from the last separator of documents among them."""
    below = []
    for _, run in itertools.groupby(lines, lambda line: line.lstrip(" \t\f")[0]):
        run = list(run)
        below = [] if all(re.fullmatch("[#!]---[ \t\f]*", line.rstrip("\r\n")) for line in run) else below + run
    return below


def without(groups, *keys):
    """The groups without the pairs with these keys and their comments."""
    left, above = [], []
    for kind, text in groups:
        if kind == "comment":
            above.append((kind, text))
            continue
        takes = isinstance(kind, list) and kind[0] in keys
        count = len(below_separators([line for _, line in above])) if takes else 0
        left += above[: len(above) - count] + ([] if takes else [(kind, text)])
        above = []
    return left + above


def check_removal(groups, key, fail):
    """Compares a removal with the groups, and returns what came of it."""
    data, left = whole(groups), whole(without(groups, key))
    is_there = any(kind == [key] for kind, _ in groups)
    result = propedit("remove", "--with-comment", "--", key, data=data)
    if result != (0, left, b""):
        fail(f"{result}, and not {left}")
    status, strict, _ = propedit("-x", "remove", "--with-comment", "--", key, data=data)
    if (status, strict) != ((0, left) if is_there else (1, b"")):
        fail(f"with -x {status, strict}")
    if not is_there:
        return "no key"
    return "comments" if left != propedit("remove", "--", key, data=data)[1] else "no comments"


def removals(keys):
    return sum((["remove", "--", key] for key in keys), [])


def check_removals(groups, draw, fail):
    """Compares the removal of some keys with the groups."""
    keys = [draw.choice(KEYS) for _ in range(draw.randrange(0, 5))]
    missing = [key for key in keys if not any(kind == [key] for kind, _ in groups)]
    if keys:
        data, left = whole(groups), whole(without(groups, *keys))
        if propedit("--with-comment", *removals(keys), data=data) != (0, left, b""):
            fail(f"the removal of {keys} gives another result")
        if propedit("-x", "--with-comment", *removals(keys), data=data)[:2] != ((1, b"") if missing else (0, left)):
            fail(f"the removal of {keys} with -x gives another result")


def check_list(groups, draw, fail):
    """Compares a list of edits with its runs of removals and its other edits, one after another."""
    edits = []
    for _ in range(draw.randrange(2, 6)):
        key, text = draw.choice(KEYS), draw.choice(KEYS)
        edits.append(draw.choice([["remove", "--", key], ["remove", "--", key], ["set", "--", key, text], ["rename", "--", key, text]]))
    wanted = (0, whole(groups), b"")
    for removes, run in itertools.groupby(edits, lambda edit: edit[0] == "remove" or edit):
        option = ["--with-comment"] if removes is True else []
        wanted = propedit(*option, *sum(run, []), data=wanted[1])
        if wanted[0] != 0:
            break
    option = ["--with-comment"] if any(edit[0] == "remove" for edit in edits) else []
    if propedit(*option, *sum(edits, []), data=whole(groups)) != wanted:
        fail(f"the list {edits} gives another result")


def main():
    told = {"comments": 0, "no comments": 0, "no key": 0}
    for number in range(FIRST, FIRST + HOW_MANY):
        draw = random.Random(number)
        groups = drawn_file(draw)
        keys = [kind[0] for kind, _ in groups if isinstance(kind, list)]
        key = draw.choice(keys if keys and draw.random() < 0.9 else KEYS)
        told[check_removal(groups, key, lambda why: sys.exit(f"file {number}, {whole(groups)}, {key!r}: {why}"))] += 1
        fail = lambda why: sys.exit(f"file {number}, {whole(groups)}: {why}")
        check_list(groups, draw, fail)
        check_removals(groups, draw, fail)
    print(f"{HOW_MANY} files:", ", ".join(f"{count} {what}" for what, count in told.items()))


if len(sys.argv) not in (2, 3, 4):
    sys.exit(__doc__)
PROPEDIT = sys.argv[1]
HOW_MANY, FIRST = [*map(int, sys.argv[2:]), *(2000, 0)[len(sys.argv) - 2 :]]
main()
