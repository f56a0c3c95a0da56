#!/usr/bin/env python3
"""Compares what `propedit diff` and `check --base` print of random pairs of files with a model of the format in Python.

    tests/try_diff.py PROPEDIT [PAIRS]

It makes two files at a time, reads both by the model, and expects the differences of the two maps, in order, with their
lines; that each pair which is printed reads back, in the model, as the key and the value; and the keys that only one of
the files has, with the lines of their first pairs. It prints how many pairs of files passed, and stops with status 1 at
the first that differs.
"""
import os
import random
import subprocess
import sys
import tempfile
import unicodedata

PIECES = ["a", "b", "k", "ab", "é", "😀", " ", "  ", "\t", "\f", "=", ":", "#", "!", "\\", "\\\\", "\\n", "\\t", "\\ ", "\\=",
          "\\u0061", "\\u00e9", "\\ud83d\\ude00", "\\u0007", "\n", "\n", "\n", "\r\n", "\r", "\\\n", "\\\r\n  ", "k=", "a:", "\na=1\n"]
BLANKS = " \t\f"
LETTERS = {"t": "\t", "n": "\n", "r": "\r", "f": "\f"}


def natural_lines(text):
    line = ""
    for place, c in enumerate(text):
        if c == "\n" and text[place - 1:place] == "\r":
            continue
        if c in "\r\n":
            yield line
            line = ""
        else:
            line += c
    if line:
        yield line


def logical_lines(text):
    """Each with the number of its first line, but for comments, which joining may make too, and lines of nothing."""
    joined, first = None, 0
    for number, line in enumerate(natural_lines(text), 1):
        line = line.lstrip(BLANKS)
        if joined is None:
            if not line or line[0] in "#!":
                continue
            joined, first = "", number
        joined += line
        if (len(joined) - len(joined.rstrip("\\"))) % 2:
            joined = joined[:-1]
        else:
            if joined and joined[0] not in "#!":
                yield first, joined
            joined = None
    if joined and joined[0] not in "#!":
        yield first, joined


def resolved(text):
    made, at = "", 0
    while at < len(text):
        c, after = text[at], text[at + 1:at + 2]
        if c != "\\":
            made, at = made + c, at + 1
        elif after == "u":
            made, at = made + chr(int(text[at + 2:at + 6], 16)), at + 6
        else:
            made, at = made + LETTERS.get(after, after), at + 2
    return made.encode("utf-16-le", "surrogatepass").decode("utf-16-le")


def pairs(text):
    for number, line in logical_lines(text):
        at = 0
        while at < len(line) and line[at] not in "=:" + BLANKS:
            at += 2 if line[at] == "\\" else 1
        rest = line[at:].lstrip(BLANKS)
        if rest[:1] in ("=", ":"):
            rest = rest[1:].lstrip(BLANKS)
        yield number, resolved(line[:at]), resolved(rest)


def table(text):
    """The line and the value of the last pair with each key, in the order of the first pairs."""
    rows = {}
    for number, key, value in pairs(text):
        rows[key] = (number, value)
    return rows


def differences(old, new):
    for key, (number, value) in old.items():
        if key not in new or new[key][1] != value:
            yield "old", number, "-", key, value
            if key in new:
                yield "new", new[key][0], "+", key, new[key][1]
    for key, (number, value) in new.items():
        if key not in old:
            yield "new", number, "+", key, value


def firsts(text):
    """The line of the first pair with each key, in order."""
    rows = {}
    for number, key, _ in pairs(text):
        rows.setdefault(key, number)
    return rows


def shown(key):
    return "".join(f"\\u{{{ord(c):x}}}" if unicodedata.category(c) == "Cc" else c for c in key)


def comparison(old, new):
    for key, number in old.items():
        if key not in new:
            yield f"new: key '{shown(key)}' is missing (old:{number})"
    for key, number in new.items():
        if key not in old:
            yield f"new:{number}: key '{shown(key)}' is not in old"


def printed(lines):
    for line in lines:
        name, number, rest = line.split(":", 2)
        read = list(pairs(rest[2:] + "\n"))
        if len(read) != 1 or rest[0] != " ":
            yield line
        else:
            yield name, int(number), rest[1], read[0][1], read[0][2]


def text(random_one):
    return "".join(random_one.choice(PIECES) for _ in range(random_one.randrange(24)))


def is_sound(made):
    try:
        list(pairs(made))
        return True
    except (ValueError, UnicodeDecodeError):
        return False


def main(program, count):
    random_one = random.Random(20261129)
    with tempfile.TemporaryDirectory() as folder:
        passed = 0
        while passed < count:
            old = text(random_one)
            new = old.replace(random_one.choice(PIECES), random_one.choice(PIECES), 1) if random_one.random() < 0.5 else text(random_one)
            if not (is_sound(old) and is_sound(new)):
                continue
            for name, made in (("old", old), ("new", new)):
                with open(os.path.join(folder, name), "w", encoding="utf8", newline="") as file:
                    file.write(made)
            run = subprocess.run([os.path.abspath(program), "diff", "old", "new"], cwd=folder, capture_output=True)
            wanted = list(differences(table(old), table(new)))
            found = list(printed(run.stdout.decode().split("\n")[:-1]))
            if (run.returncode, found, run.stderr) != (1 if wanted else 0, wanted, b""):
                print(f"old {old!r}\nnew {new!r}\nfound {run.returncode} {found} {run.stderr}\nwanted {wanted}", file=sys.stderr)
                sys.exit(1)
            run = subprocess.run([os.path.abspath(program), "check", "--base", "old", "new"], cwd=folder, capture_output=True)
            wanted = list(comparison(firsts(old), firsts(new)))
            found = [line for line in run.stdout.decode().split("\n") if ": key '" in line]
            if (found, run.stderr) != (wanted, b"") or run.returncode != (1 if run.stdout else 0):
                print(f"old {old!r}\nnew {new!r}\nfound {run.returncode} {found} {run.stderr}\nwanted {wanted}", file=sys.stderr)
                sys.exit(1)
            passed += 1
    print(f"{passed} pairs of files passed")


if __name__ == "__main__":
    if len(sys.argv) not in (2, 3):
        sys.exit("usage: try_diff.py PROPEDIT [PAIRS]")
    main(sys.argv[1], int(sys.argv[2]) if len(sys.argv) > 2 else 10000)
