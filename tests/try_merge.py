#!/usr/bin/env python3
"""Compares what propedit merges with the maps of both files, on 10,000 random pairs of files.

    tests/try_merge.py PROPEDIT

A file is read by a reader of its own here. The source after a merge has the values of the other file for its keys, and
its own ones for all others: a new key comes last, in the order of the other file. With -x it is refused if a key is new,
and with --known it gets none. `list -v -z` of the other file, merged with -z, gives the same bytes.
"""
import pathlib
import random
import subprocess
import sys
import tempfile

HOW_MANY = 10000
KEYS = ["a", "b", "k", "é", "a b", ":", "", "ключ", "\\", "a=b"]
BREAK = "\\\n  "
VALUES = ["", "1", " x", "x ", "C:\\tmp", "=", "# no", "\t", "é €", "🐞", "two\nlines", "a\\"]


def spelt(text, draw, is_key):
    """A text as a file may have it."""
    escapes = {"\t": "\\t", "\n": "\\n", "\\": "\\\\"}
    shown = [""]
    for character in text:
        if character in escapes:
            shown.append(escapes[character])
        elif character == " " and (is_key or shown[-1] in ("", BREAK)) or character in "=:#!" and (is_key or draw.random() < 0.5):
            shown.append("\\" + character)
        elif draw.random() < 0.1 and ord(character) < 0x10000:
            shown.append(f"\\u{ord(character):04x}")
        else:
            shown.append(character)
        if draw.random() < 0.03:
            shown.append(BREAK)
    return "".join(shown)


def source(draw):
    """A file, and its pairs in order."""
    lines, pairs = [], []
    for _ in range(draw.randrange(7)):
        if draw.random() < 0.2:
            lines.append(draw.choice(["# a comment \\u12", "", "  ! b", "\t"]))
            continue
        key, value = draw.choice(KEYS), draw.choice(VALUES)
        pairs.append((key, value))
        separator = draw.choice([" = ", "=", ": ", " :"])
        lines.append(draw.choice(["", "  "]) + spelt(key, draw, True) + separator + spelt(value, draw, False))
    end = draw.choice(["\n", "\r\n"])
    text = end.join(lines) + (end if lines and draw.random() < 0.8 else "")
    return text.encode(), pairs


def propedit(*words, data=b""):
    """The status, and what propedit prints."""
    done = subprocess.run([PROPEDIT, *words], input=data, stdout=subprocess.PIPE, stderr=subprocess.DEVNULL)
    return done.returncode, done.stdout


def listed(data):
    """The pairs of a file, each key once and with its last value."""
    texts = propedit("list", "-v", "-z", data=data)[1].decode().split("\0")[:-1]
    return list(zip(texts[::2], texts[1::2]))


def expect(number, what, got, wanted):
    if got != wanted:
        sys.exit(f"pair {number}, {what}: {got!r}, and not {wanted!r}")


def try_pair(number, draw):
    old, old_pairs = source(draw)
    other, other_pairs = source(draw)
    name = f"{ROOM}/other.properties"
    pathlib.Path(name).write_bytes(other)
    expect(number, "the pairs", listed(other), list(dict(other_pairs).items()))
    before, taken = dict(old_pairs), dict(other_pairs)
    status, merged = propedit("merge", name, data=old)
    expect(number, "merge", (status, dict(listed(merged))), (0, {**before, **taken}))
    new = [key for key in taken if key not in before]
    expect(number, "the order of new keys", [key for key, _ in listed(merged)][len(before):], new)
    texts = propedit("list", "-v", "-z", data=other)[1]
    pathlib.Path(f"{ROOM}/old.properties").write_bytes(old)
    expect(number, "-z", propedit("merge", "-z", "-f", f"{ROOM}/old.properties", "-", data=texts), (0, merged))
    expect(number, "-x", propedit("merge", "-x", name, data=old), (1, b"") if new else (0, merged))
    status, known = propedit("merge", "--known", name, data=old)
    kept = {key: taken.get(key, value) for key, value in before.items()}
    expect(number, "--known", (status, listed(known)), (0, list(kept.items())))
    if not taken:
        expect(number, "nothing", merged, old)


if __name__ == "__main__":
    if len(sys.argv) != 2:
        sys.exit(__doc__)
    PROPEDIT = str(pathlib.Path(sys.argv[1]).resolve())
    with tempfile.TemporaryDirectory() as ROOM:
        draw = random.Random(87)
        for number in range(1, HOW_MANY + 1):
            try_pair(number, draw)
    print(f"{HOW_MANY} pairs of files are merged as their maps say")
