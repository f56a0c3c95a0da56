#!/usr/bin/env python3
"""Counts the instructions a byte on each input of bench/inputs.py: counts.py PROPFILTER PROPEDIT CALLS [NAME ..]

The three are built programs; bench/build_calls builds CALLS. It prints the table of instructions as bench/RESULTS.md has it, or
the rows of the inputs that are named. `pairs` and `shipped` are read in UTF-8 too, which propedit takes if nothing is said. Calls of
the library are counted without reading the input, beside bench/by_hand.rs, which rustc builds; both know windows-1252 alone here. It
needs valgrind, and takes some ten minutes.
"""
import os
import re
import subprocess
import sys
import tempfile

import inputs

HERE = os.path.dirname(os.path.realpath(__file__))


def instructions(path, program, *arguments):
    """The instructions of a program that reads the file, or None if it fails."""
    command = ["valgrind", "--tool=callgrind", "--callgrind-out-file=/dev/null", program, *arguments]
    with open(path) as source:
        ran = subprocess.run(command, stdin=source, stdout=subprocess.DEVNULL, stderr=subprocess.PIPE, text=True, errors="replace")
    return None if ran.returncode == 2 else int(re.search(r"Collected : (\d+)", ran.stderr)[1])


def calls(path, program, *names):
    start = instructions(path, program, "copy")
    return [instructions(path, program, name) - start for name in names]


def counts(path, encoding, propfilter, propedit, program, by_hand):
    """What is counted, in the order of COLUMNS."""
    found = [instructions(path, propfilter, encoding), instructions(path, propfilter, encoding, "ascii")]
    if encoding == "windows-1252":
        found += calls(path, program, "advance", "next", "lines", "read", "write")
        found[-1] -= found[-2]
        found += calls(path, by_hand, "pairs", "map")
    else:
        found += [None] * 7
    for words in (["get", "no.such.key"], ["set", "no.such.key", "v"], ["list"], ["-v", "list"], ["check"], ["convert", "utf-8"]):
        found.append(instructions(path, propedit, "-e", encoding, *words))
    return found


COLUMNS = [
    "input", "`propfilter`", "`ascii`", "`advance`", "`next`", "`read_lines`", "`read`", "`write`", "by hand, vector", "map", "`get`",
    "`set`", "`list`", "`-v list`", "`check`", "`convert`",
]


def print_row(cells):
    print(f"| {' | '.join(cells)} |".replace("|  ", "| "), flush=True)


def main(propfilter, propedit, program, *names):
    print_row(COLUMNS)
    print(f"|{'---|' * len(COLUMNS)}")
    with tempfile.TemporaryDirectory() as folder:
        path = f"{folder}/input"
        subprocess.run(["rustc", "-O", "-o", f"{folder}/by_hand", f"{HERE}/by_hand.rs"], check=True)
        rows = [(f"`{name}`", name, encoding) for name, (encoding, _) in inputs.NAMES.items()]
        for head, name, encoding in rows + [(f"`{name}` by `utf-8`", name, "utf-8") for name in ("pairs", "shipped")]:
            if names and name not in names:
                continue
            with open(path, "wb") as file:
                subprocess.run([sys.executable, f"{HERE}/inputs.py", name, "1"], stdout=file, check=True)
            found = counts(path, encoding, propfilter, propedit, program, f"{folder}/by_hand")
            print_row([head, *("" if count is None else f"{max(count, 0) / os.path.getsize(path):.1f}" for count in found)])


if __name__ == "__main__":
    if len(sys.argv) < 4:
        sys.exit(__doc__.split("\n")[0])
    main(*sys.argv[1:])
