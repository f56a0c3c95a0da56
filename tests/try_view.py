#!/usr/bin/env python3
"""Compares what a View shows of random sources with a model, written here, that shares nothing with the library.

    tests/try_view.py [SEEDS [SOURCES [PROGRAM]]]

SEEDS seeds, 3 if left out, with SOURCES sources each, 20,000 if left out: short ones in windows-1252 and UTF-8, many
with joins, malformed escapes, ill-formed bytes or a byte order mark. They become rows of tables, whose right sides the
model makes: kinds, lines, raw texts, all places, malformed escapes with line and column, and ill-formed lines. PROGRAM
is a built `editing_vectors`, as `crates/editing_vectors/out/editing_vectors`; without it the program is built and not
proved. Exit status 1 if a row doesn't hold.
"""
import os
import random
import re
import subprocess
import sys
import tempfile

ROOT = os.path.dirname(os.path.dirname(os.path.realpath(__file__)))
BLANKS = " \t\x0c"
ENDING = re.compile(rb"\r\n|\r|\n")
PARTS = [b"a", b"b", b"=", b":", b" ", b" ", b"\t", b"\x0c", b"\\", b"\\", b"\\", b"\\u", b"\\u00e9", b"\\ud83d", b"\\ude00",
         b"0", b"#", b"!", b"\n", b"\n", b"\r", b"\r\n", b"\\\n", b"\\\r\n ", b"\xc3\xa9", b"\xff", b"\xe2\x82", b"\x80",
         b"\xe2\x82\xac", b"\xf0\x9f\x98\x80", b"\xed\xa0\x80", b"\xef\xbb\xbf", b"word", b"k = v", b"\\\n   "]


def decoded(line, encoding):
    """The characters of a line, each with the size of the line up to its end."""
    if encoding == "w":
        # The bytes that Python's codec doesn't have are the controls of their numbers.
        return [(bytes([b]).decode("cp1252") if b not in (0x81, 0x8D, 0x8F, 0x90, 0x9D) else chr(b), i + 1)
                for i, b in enumerate(line)]
    found, at = [], 0
    while at < len(line):
        for size in range(1, 5):
            try:
                character = line[at:at + size].decode("utf-8")
            except UnicodeDecodeError:
                continue
            break
        else:
            try:
                line[at:].decode("utf-8")
            except UnicodeDecodeError as error:
                character, size = "\ufffd", error.end
        at += size
        found.append((character, at))
    return found


def natural_lines(source, at):
    """Where each line begins, where its ending begins, and where the next line does."""
    found = []
    while ending := ENDING.search(source, at):
        found.append((at, ending.start(), ending.end()))
        at = ending.end()
    return found + [(at, len(source), len(source))]


def is_open(line):
    text = "".join(c[0] for c in line)
    return (len(text) - len(text.rstrip("\\"))) % 2 == 1


def stripped(line):
    at = 0
    while at < len(line) and line[at][0] in BLANKS:
        at += 1
    return line[at:]


def code_unit(text, at, end):
    """The number of the four digits after the `\\u` at a place, or the word for what is wrong with them."""
    digits = text[at + 2:min(at + 6, end)]
    if len(digits) < 4:
        return "NotEnoughDigits"
    return int(digits, 16) if all(d in "0123456789abcdefABCDEF" for d in digits) else "NotHex"


def first_flaw(text, at, end):
    """The place of the first malformed escape of a part, and how it is malformed."""
    while at < end:
        if text[at] != "\\":
            at += 1
        elif text[at + 1:at + 2] != "u" or at + 1 >= end:
            at += 2
        else:
            unit = code_unit(text, at, end)
            if isinstance(unit, str):
                return at, unit
            if 0xD800 <= unit < 0xDC00 and at + 7 < end and text[at + 6:at + 8] == "\\u":
                low = code_unit(text, at + 6, end)
                if isinstance(low, int) and 0xDC00 <= low < 0xE000:
                    at += 12
                    continue
            if 0xD800 <= unit < 0xE000:
                return at, "InvalidCharacter"
            at += 6
    return None


def parts_of(text):
    """What a logical line is, and how many characters come before its parts."""
    indent = len(text) - len(text.lstrip(BLANKS))
    if indent == len(text):
        return "blank", (indent,) * 4
    if text[indent] in "#!":
        start = indent + 1
        while start < len(text) and text[start] in BLANKS:
            start += 1
        return "comment", (indent, indent + 1, start, max(start, len(text.rstrip(BLANKS))))
    key = indent
    while key < len(text) and text[key] not in BLANKS + "=:":
        key += 2 if text[key] == "\\" and key + 1 < len(text) else 1
    value = key
    while value < len(text) and text[value] in BLANKS:
        value += 1
    if value < len(text) and text[value] in "=:":
        value += 1
        while value < len(text) and text[value] in BLANKS:
            value += 1
    return "pair", (indent, key, value, len(text))


def quoted(data):
    """Bytes in the notation of tables."""
    named = {0x0A: "\\n", 0x0D: "\\r", 0x09: "\\t", 0x5C: "\\\\"}
    return '"' + "".join(named.get(b) or (chr(b) if 0x20 <= b <= 0x7E else f"\\x{b:02x}") for b in data) + '"'


def model(encoding, source):
    """The right side of a row."""
    if source[:2] in (b"\xfe\xff", b"\xff\xfe"):
        return "Unsupported"
    marked = source[:3] == b"\xef\xbb\xbf"
    encoding = "u" if marked else encoding
    lines = natural_lines(source, 3 if marked else 0)
    shown, i, begun = [], 0, 3 if marked else 0
    while i < len(lines):
        first, line = i, []

        def characters(k):
            start, end, _ = lines[k]
            return [(c, start + size, k + 1, start) for c, size in decoded(source[start:end], encoding)]

        natural = characters(i)
        if stripped(natural) and stripped(natural)[0][0] in "#!":
            line = natural
        else:
            while is_open(natural):
                line += natural[:-1]
                if i + 1 == len(lines):
                    break
                i += 1
                natural = stripped(characters(i))
            else:
                line += natural
        start, end, after = lines[first][0], lines[i][1], lines[i][2]
        if start == after:
            break
        text = "".join(c[0] for c in line)
        kind, counts = parts_of(text)
        places = [line[n - 1][1] if n else start for n in counts]
        if kind == "blank":
            places = [end] * 4
        elif kind == "pair":
            places[3] = end
        key, value = text[counts[0]:counts[1]], text[counts[2]:counts[3]]
        assert start == begun, "the groups are the source"
        begun = after
        told = f"{kind} {first + 1}" + (f"-{i + 1}" if i > first else "")
        told += f" {quoted(key.encode())} {quoted(value.encode())} "
        told += " ".join(map(str, [start, *places, end, after]))
        flaw = None
        if kind == "pair":
            flaw = first_flaw(text, counts[0], counts[1])
        if kind != "blank" and flaw is None:
            flaw = first_flaw(text, counts[2], counts[3])
        if flaw:
            _, at, number, begins = line[flaw[0]]
            told += f" {flaw[1]} at {at - 1} in {number}:{at - begins}"
        if encoding == "u":
            for k in range(first, i + 1):
                try:
                    source[lines[k][0]:lines[k][1]].decode("utf-8")
                except UnicodeDecodeError:
                    told += f" ill-formed {k + 1}"
                    break
        shown.append(told)
        i += 1
    assert begun == len(source), "the groups are the source"
    return "; ".join(shown) or "nothing"


def sources_of(seed, count):
    chosen = random.Random(seed)
    for _ in range(count):
        source = b"".join(chosen.choice(PARTS) for _ in range(chosen.randint(0, 24)))
        if chosen.random() < 0.1:
            source = b"\xef\xbb\xbf" + source
        yield chosen.choice("uw"), source


def table_of(seed, count):
    """A table with a row for each source."""
    rows = {"w": [], "u": []}
    for encoding, source in sources_of(seed, count):
        rows[encoding].append(f"{quoted(source)} | {model(encoding, source)}")
    return "\n".join(["view windows-1252", *rows["w"], "view utf-8", *rows["u"]]) + "\n"


def main():
    words = sys.argv[1:]
    seeds, count = (int(words[0]) if words else 3), (int(words[1]) if len(words) > 1 else 20000)
    program = [os.path.abspath(words[2])] if len(words) > 2 else ["rt", "try", "--seconds", "900", "--"]
    with tempfile.TemporaryDirectory() as work:
        tables = []
        for seed in range(1, seeds + 1):
            tables.append(f"{work}/seed_{seed}.txt")
            with open(tables[-1], "w", encoding="utf-8") as table:
                table.write(table_of(seed, count))
        ran = subprocess.run(program + tables, cwd=f"{ROOT}/crates/editing_vectors", stdout=subprocess.PIPE, text=True)
    printed = [line.replace(work + "/", "") for line in ran.stdout.splitlines()]
    print("\n".join(printed[:40]))
    sys.exit(sum(line.endswith(f": {count} rows hold") for line in printed) != seeds)


main()
