#!/usr/bin/env python3
"""Compares what `propedit` prints as JSON of random files with a model of the format in Python.

    tests/try_json.py PROPEDIT [PAIRS]

Each file is read by the model of try_diff.py, and each answer by Python's `json`, with the members of objects in order.
It prints how many pairs of files passed, and stops with status 1 at the first that differs.
"""
import json
import os
import random
import subprocess
import sys
import tempfile

from try_diff import PIECES, firsts, is_sound, pairs, shown, table, text

PREFIXES = ["", "", "", "a", "ab", "é", "b"]
# The kinds that `--ignore` takes.
KINDS = ["byte-order-mark", "utf-32-mark", "u-feff", "non-ascii", "read-otherwise", "looks-like-utf-8", "blank-after-backslash",
         "backslash-at-end", "repeated-key", "missing-key", "surplus-key"]


def listed(rows, prefix):
    """What `list` prints, and its status."""
    pairs = [(key, value) for key, (_, value) in rows.items() if key.startswith(prefix)]
    return [pairs], 0 if pairs or not prefix else 1


def compared(old, new):
    """What `diff` prints, and its status."""
    objects = []
    for key in [*old, *(key for key in new if key not in old)]:
        if key not in old or key not in new or old[key][1] != new[key][1]:
            sides = [(name, rows[key]) for name, rows in (("old", old), ("new", new)) if key in rows]
            objects.append([("key", key), *((name, [("line", line), ("value", value)]) for name, (line, value) in sides)])
    return objects, 1 if objects else 0


def repeated(name, made):
    """What `check` says of keys that an earlier pair has."""
    seen = {}
    for number, key, _ in pairs(made):
        first = seen.setdefault(key, number)
        if first != number:
            yield [("file", name), ("line", number), ("kind", "repeated-key"), ("key", key), ("first", first),
                   ("message", f"repeats the key '{shown(key)}' of line {first}")]


def keys_checked(old, new):
    """What `check --base` says of keys."""
    yield from repeated("old", old)
    yield from repeated("new", new)
    for key, number in firsts(old).items():
        if key not in firsts(new):
            yield [("file", "new"), ("kind", "missing-key"), ("key", key), ("base", "old"), ("base_line", number),
                   ("message", f"key '{shown(key)}' is missing (old:{number})")]
    for key, number in firsts(new).items():
        if key not in firsts(old):
            yield [("file", "new"), ("line", number), ("kind", "surplus-key"), ("key", key), ("base", "old"),
                   ("message", f"key '{shown(key)}' is not in old")]


def line_of(finding):
    """The line that is printed of a finding without `--json`."""
    said = dict(finding)
    place = f"{said['file']}:{said['line']}" if "line" in said else said["file"]
    return f"{place}: {said['message']}"


def read(printed):
    """The values on the lines that were printed, each object as a list of its members."""
    lines = printed.decode().split("\n")
    if lines.pop():
        raise ValueError("the last line has no end")
    return [json.loads(line, object_pairs_hook=list) for line in lines]


def answer(program, folder, words):
    run = subprocess.run([program, "--json", *words], cwd=folder, capture_output=True)
    if run.stderr:
        raise ValueError(run.stderr)
    return read(run.stdout), run.returncode


def main(program, count):
    draw = random.Random(87)
    with tempfile.TemporaryDirectory() as folder:
        passed = 0
        while passed < count:
            old = text(draw)
            new = old.replace(draw.choice(PIECES), draw.choice(PIECES), 1) if draw.random() < 0.5 else text(draw)
            if not (is_sound(old) and is_sound(new)):
                continue
            for name, made in (("old", old), ("new", new)):
                with open(os.path.join(folder, name), "w", encoding="utf8", newline="") as file:
                    file.write(made)
            prefix = draw.choice(PREFIXES)
            for words, wanted in (
                (["list", "-f", "old", "--", prefix], listed(table(old), prefix)),
                (["diff", "old", "new"], compared(table(old), table(new))),
            ):
                found = answer(program, folder, words)
                if found != wanted:
                    print(f"old {old!r}\nnew {new!r}\n{words}\nfound {found}\nwanted {wanted}", file=sys.stderr)
                    sys.exit(1)
            words = ["check", "--base", "old", "new"]
            found, status = answer(program, folder, words)
            plain = subprocess.run([program, *words], cwd=folder, capture_output=True)
            wanted = list(keys_checked(old, new))
            if ([finding for finding in found if "key" in dict(finding)], [line_of(finding) for finding in found], status) != (
                    wanted, plain.stdout.decode().split("\n")[:-1], plain.returncode):
                print(f"old {old!r}\nnew {new!r}\n{words}\nfound {found}\nwanted {wanted}", file=sys.stderr)
                sys.exit(1)
            kinds = draw.sample(KINDS, draw.randint(1, 4)) + draw.choice([[], ["repeated-key"]])
            words = ["check", "--ignore", ",".join(kinds), *words[1:]]
            left = [finding for finding in found if dict(finding)["kind"] not in kinds]
            if answer(program, folder, words) != (left, 1 if left else 0):
                print(f"old {old!r}\nnew {new!r}\n{words}\nwanted {left}", file=sys.stderr)
                sys.exit(1)
            passed += 1
    print(f"{passed} pairs of files passed")


if __name__ == "__main__":
    if len(sys.argv) not in (2, 3):
        sys.exit("usage: try_json.py PROPEDIT [PAIRS]")
    main(os.path.abspath(sys.argv[1]), int(sys.argv[2]) if len(sys.argv) > 2 else 3000)
