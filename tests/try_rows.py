#!/usr/bin/env python3
"""Runs rows: what a command line of propedit prints, and what it leaves of the files in its folder.

    tests/try_rows.py PROPEDIT [FILE ..] [--only TEXT]

Without a FILE it runs all of crates/program_vectors/data, as the crate does over the code of propedit. With --only it
runs the rows whose heading, title or command line has TEXT. It prints what differs, and "N passed, M failed". A row is a
block of lines:

    = TITLE           what it shows; may be left out; headings of several rows begin with "## ", comments with "#"
    $ WORD ..         the arguments, each bare or in quotes
    < NAME TEXT       a file before the run; "-" is standard input, which is empty otherwise; "folder" for TEXT is a directory
    ? STATUS          the exit status; without this line it is 0
    1 TEXT            standard output; without this line it is empty; "1 .." is any
    2 TEXT            standard error; without this line it is empty; "2 .." is any; ".." after TEXT: other lines follow the first
    > NAME TEXT       a file after the run; each file without this line is as it was, and there is no other

A TEXT is one or several texts in quotes, which are joined, and so are the texts of several lines that begin alike. In
quotes \\n \\r \\t \\f \\" \\\\ are as in C, \\x80 is the byte 80, and all else is UTF-8. N*"TEXT" is TEXT N times, in which
{} is the number of the time, from 1 on. The name "./-" is that of a file called "-".
"""
import argparse
import pathlib
import re
import subprocess
import sys
import tempfile

ROWS = pathlib.Path(__file__).resolve().parents[1] / "crates" / "program_vectors" / "data"
ESCAPES = {b"n": b"\n", b"r": b"\r", b"t": b"\t", b"f": b"\f", b'"': b'"', b"\\": b"\\"}
ESCAPE = re.compile(rb"\\(?:x([0-9a-f]{2})|(.))")
PART = re.compile(r'(?:(\d+)\*)?"((?:[^"\\]|\\.)*)"|(\S+)')
DIRECTORY = object()


class Row:
    """A row. Texts that are not compared are None."""

    def __init__(self, place, heading, title):
        self.place, self.heading, self.title, self.line = place, heading, title, ""
        self.words, self.input, self.before, self.after = [], b"", {}, {}
        self.status, self.output, self.errors, self.only_first = 0, b"", b"", False

    def has(self, text):
        return any(text in where for where in (self.heading, self.title, self.line))

    def files(self):
        """The files that it expects after the run."""
        return {name: data for name, data in {**self.before, **self.after}.items() if data is not DIRECTORY}

    def read(self, line):
        """Takes one of its lines."""
        sign, rest = line[0], line[2:]
        if sign == "$":
            self.line, self.words = line, parts(rest)
        elif sign == "?":
            self.status = int(rest)
        elif sign == "1":
            self.output = joined(self.output, text(rest))
        elif sign == "2":
            self.only_first = rest.endswith(" ..")
            self.errors = joined(self.errors, text(rest.removesuffix(" ..")))
        elif sign in "<>" and line[1] == " ":
            name, data = rest.split(" ", 1)
            if sign == "<" and name == "-":
                self.input += text(data)
            else:
                add_file(self.before if sign == "<" else self.after, parts(name)[0].removeprefix(b"./"), data)
        else:
            sys.exit(f"{self.place}: no line of a row: {line}")


def unescaped(quoted):
    return ESCAPE.sub(lambda m: bytes.fromhex(m[1].decode()) if m[1] else ESCAPES[m[2]], quoted.encode())


def repeated(count, once):
    return b"".join(once.replace(b"{}", b"%d" % at) for at in range(1, count + 1))


def parts(line):
    """The bytes of each part of a line."""
    return [
        bare.encode() if bare else repeated(int(count), unescaped(quoted)) if count else unescaped(quoted)
        for count, quoted, bare in PART.findall(line)
    ]


def text(line):
    return None if line == ".." else b"".join(parts(line))


def joined(before, more):
    return None if before is None or more is None else before + more


def add_file(files, name, data):
    files[name] = DIRECTORY if data == "folder" else files.get(name, b"") + text(data)


def rows_in(path):
    """The rows of a file."""
    heading, row = "", None
    for number, line in enumerate(path.read_text(encoding="utf-8").split("\n"), 1):
        if line.startswith("## "):
            heading = line[3:]
            continue
        if line.startswith("= ") or line.startswith("$") and (not row or row.line):
            if row:
                yield row
            row = Row(f"{path.name}:{number}", heading, line[2:])
        if line and line[0] not in "#=":
            row.read(line)
    if row:
        yield row


def make_files(folder, row):
    for name, data in row.before.items():
        path = folder / name.decode()
        if data is DIRECTORY:
            path.mkdir()
        else:
            path.write_bytes(data)


def files_in(folder):
    return {str(path.relative_to(folder)).encode(): path.read_bytes() for path in folder.rglob("*") if path.is_file()}


def differences(program, row):
    """What a run does differently."""
    with tempfile.TemporaryDirectory() as name:
        folder = pathlib.Path(name)
        make_files(folder, row)
        done = subprocess.run([program, *row.words], cwd=folder, input=row.input, capture_output=True, check=False)
        files = files_in(folder)
    errors = done.stderr[: done.stderr.find(b"\n") + 1] if row.only_first else done.stderr
    compared = [("status", done.returncode, row.status), ("standard output", done.stdout, row.output), ("standard error", errors, row.errors)]
    for path in sorted({*files, *row.files()}):
        compared.append((path.decode(), files.get(path, "missing"), row.files().get(path, "missing")))
    return [f"{what}: {got!r:.400}, and not {wanted!r:.400}" for what, got, wanted in compared if wanted is not None and got != wanted]


def main():
    parser = argparse.ArgumentParser(usage=__doc__.split("\n")[2].strip())
    parser.add_argument("program", type=pathlib.Path)
    parser.add_argument("files", nargs="*", type=pathlib.Path)
    parser.add_argument("--only", default="")
    given = parser.parse_args()
    passed = failed = 0
    for path in given.files or sorted(ROWS.glob("*.txt")):
        for row in rows_in(path):
            if not row.has(given.only):
                continue
            found = differences(given.program.resolve(), row)
            passed, failed = passed + (not found), failed + bool(found)
            if found:
                print(f"{row.place}: {row.title}", row.line, *found, sep="\n    ")
    print(f"{passed} passed, {failed} failed")
    return min(failed, 1)


if __name__ == "__main__":
    sys.exit(main())
