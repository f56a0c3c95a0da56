#!/usr/bin/env python3
"""Writes one of the inputs that the speed is measured on: inputs.py NAME MEBIBYTES > FILE."""
import random
import sys

NAMES = {
    # name: (argument of the program, what it is)
    "pairs": ("windows-1252", "pairs in ASCII, with blanks, escapes, comments, joins and blank lines"),
    "pairs-crlf": ("windows-1252", "the same with CR LF"),
    "pairs-latin-1": ("windows-1252", "the same with non-ASCII words, one byte a character"),
    "pairs-utf-8": ("utf-8", "the same in UTF-8, with words of three bytes a character"),
    "pairs-utf-16le": ("utf-16le", "the same as in Latin-1, in UTF-16LE"),
    "short-lines": ("windows-1252", "lines a=b"),
    "joins": ("windows-1252", "one value joined of lines of a few characters"),
    "one-line": ("windows-1252", "one line of words"),
    "backslashes": ("windows-1252", "one line of backslashes"),
    "carriage-returns": ("windows-1252", "CR alone"),
    "escapes": ("windows-1252", "a value of escapes alone"),
    "escaped-when-written": ("windows-1252", "a value of characters that are all escaped when they are written"),
    "shipped": ("windows-1252", "lines in the shares that files have which are shipped in programs"),
    "windows-1252": ("windows-1252", "pairs with non-ASCII letters, dashes, quotes and the euro sign"),
    "escapes-in-lines": ("windows-1252", "a pair a line, its value of escapes alone"),
    "blanks": ("windows-1252", "one line of blanks around ="),
}


def pairs(number, word):
    kinds = [
        f"key.{number}.{word} = some words of {word} text {number}\n",
        f"another.key.{number}={word} {word} and a number {number * 7}\n",
        f"# a comment about {word} {number}\n",
        f"path.{number} : c:\\\\{word}\\\\file\\t{number}\n",
        f"list.{number} = first, \\\n        second {word}, \\\n        third {number}\n",
        "\n",
    ]
    return kinds[number % len(kinds)]


WORDS = "the file is not there and a new one was made for you in this place since it could no longer be read".split()


def sentence(source, length):
    """Some words of about that many characters."""
    text = ""
    while len(text) < length:
        text += ("" if text == "" else " ") + source.choice(WORDS)
    return text


def escaped(source, count):
    """Escapes in runs, of characters that windows-1252 doesn't have, as in texts of Russian, Greek or Chinese."""
    start, many = source.choice([(0x430, 32), (0x3b1, 24), (0x4e00, 2000)])
    text = ""
    while count > 0:
        run = min(count, source.randint(2, 8))
        text += ("" if text == "" else " ") + "".join(f"\\u{start + source.randrange(many):04x}" for _ in range(run))
        count -= run
    return text


def value(source):
    """A value as it is shipped: a few are long, and two of five have escapes."""
    chance = source.random()
    length = source.randint(4, 40) if chance < 0.7 else source.randint(40, 90) if chance < 0.94 else source.randint(150, 300)
    if source.random() < 0.44:
        return escaped(source, source.randint(3, 15)) + ("" if source.random() < 0.6 else " " + sentence(source, length // 4))
    text = sentence(source, length)
    chance = source.random()
    if chance < 0.09:
        text = text.replace(" ", source.choice([r"\n", r"\:", r"\\", r"\t"]), 1) + r"\n"
    elif chance < 0.17:
        text = text.replace("e", "\u00e9", 2) + source.choice(["", " \u2013 x", " \u201cx\u201d"])
    return text


def shipped(source):
    """A line as it is shipped, or a pair that goes on over two lines."""
    chance = source.random()
    if chance < 0.16:
        return "\n"
    if chance < 0.30:
        return "# " + sentence(source, source.randint(8, 70)) + "\n"
    key = ".".join(source.choice(WORDS) + str(source.randrange(90)) for _ in range(5))[:source.randint(16, 32)].rstrip(".")
    line_ending = "\r\n" if source.random() < 0.02 else "\n"
    sign = "=" if source.random() < 0.9 else " = "
    text = value(source)
    if source.random() < 0.02:
        text = sentence(source, 30) + " \\" + line_ending + "    " + text
    return key + sign + text + line_ending


def all_escapes(source):
    """A pair whose value is escapes: of ASCII, of Latin-1, past it, or pairs of surrogates."""
    kind = source.randrange(4)
    text = ""
    for _ in range(source.randint(4, 12)):
        if kind == 0:
            text += f"\\u{source.randrange(0x20, 0x7f):04x}"
        elif kind == 1:
            text += f"\\u{source.randrange(0xa0, 0x100):04X}"
        elif kind == 2:
            text += f"\\u{source.randrange(0x400, 0x9fff):04x}"
        else:
            text += f"\\ud83d\\u{source.randrange(0xdc00, 0xe000):04x}"
    return f"key{source.randrange(1000)}={text}\n"


def drawn(size, line, encoding):
    source = random.Random(1)
    repeated("".join(line(source) for _ in range(20000)).encode(encoding), size)


def repeated(block, size):
    out = sys.stdout.buffer
    written = 0
    while written < size:
        out.write(block)
        written += len(block)


def many(size, word, encoding, line_ending="\n"):
    text = "".join(pairs(number, word) for number in range(20000)).replace("\n", line_ending)
    repeated(text.encode(encoding), size)


def main(name, size):
    out = sys.stdout.buffer
    if name == "pairs":
        many(size, "plain", "ascii")
    elif name == "pairs-crlf":
        many(size, "plain", "ascii", "\r\n")
    elif name == "pairs-latin-1":
        many(size, "größe", "latin-1")
    elif name == "pairs-utf-8":
        many(size, "日本語", "utf-8")
    elif name == "pairs-utf-16le":
        many(size, "größe", "utf-16-le")
    elif name == "short-lines":
        repeated(b"a=b\n" * 10000, size)
    elif name == "joins":
        out.write(b"k=")
        repeated(b"word \\\n" * 10000, size)
    elif name == "one-line":
        out.write(b"k=")
        repeated(b"words of a line " * 4000, size)
    elif name == "backslashes":
        repeated(b"\\" * 65536, size)
    elif name == "carriage-returns":
        repeated(b"\r" * 65536, size)
    elif name == "escapes":
        out.write(b"k=")
        repeated(b"\\u0041\\t" * 8192, size)
    elif name == "escaped-when-written":
        out.write(b"k=")
        repeated(b"!" * 65536, size)
    elif name == "shipped":
        drawn(size, shipped, "utf-8")
    elif name == "windows-1252":
        many(size, "pr\u00fcf \u2013 \u201cja\u201d 5\u20ac", "windows-1252")
    elif name == "escapes-in-lines":
        drawn(size, all_escapes, "ascii")
    elif name == "blanks":
        half = size // 2
        out.write(b"k")
        repeated(b" \t" * 32768, half)
        out.write(b"=")
        repeated(b" \t" * 32768, half)
    else:
        sys.exit(f"inputs.py: no input is called {name}")


if __name__ == "__main__":
    if len(sys.argv) == 1:
        for name, (argument, what) in NAMES.items():
            print(f"{name}\t{argument}\t{what}")
    else:
        main(sys.argv[1], int(sys.argv[2]) * 1024 * 1024)
