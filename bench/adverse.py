#!/usr/bin/env python3
"""Compares two builds of the programs: adverse.py OLD NEW [OLD_PROPEDIT NEW_PROPEDIT], of which OLD and NEW are propfilter.

Output, messages and status have to be the same, on all inputs of bench/inputs.py in every encoding, and on 30,000 small ones that
are adverse: what is ill-formed, cut or rare stands where a block of 16 or 64 bytes ends, a part of 4,096, or the buffer of 65,536.
They are the same in each run. It prints how many there were, and up to ten that differ; it keeps these in a folder, and ends with
status 1. It takes some three minutes, with propedit eight.
"""
import collections
import os
import random
import shutil
import subprocess
import sys
import tempfile

import inputs

COUNT = 30000
SHOWN = 10
ENDS = (16, 64, 4096, 32, 16, 48, 128, 64, 4112, 8192)
BUFFER = 65536
ENCODINGS = {"windows-1252": "cp1252", "utf-8": "utf-8", "utf-16le": "utf-16-le", "utf-16be": "utf-16-be"}
MARKS = (b"\xef\xbb\xbf", b"\xff\xfe", b"\xfe\xff", b"\xef\xbb", b"\xef", b"\xff", b"\xfe", b"\xef\xbb\xbf\xef\xbb\xbf", b"\xff\xfe\xff\xfe")

# What stands at an end, in each encoding.
ESCAPES = r"""
\u0041 \u00e9 \u00E9 \u0000 \u000a \u0020 \u007f \u0080 \u20ac \u4e2d\u6587 \uffff \ud83d\ude00 \uD83D\uDE00 \ud83d \ude00 \ud83dx
\ude00\ud83d \ud83d\ud83d\ude00 \ud83d\u0041 \ud83d\n \ud83d\ \ud83d\u12 \u \u1 \u12 \u123 \u123g \uzzzz \u+123 \u-001 \U0041
\u00\u0041 \uu0041 \t \n \f \r \\ \\\ \\\\ \\\\\ \: \= \# \! \a \é \日 \😀 \u00e9\u00e8 \u0041\t\u0042 é\u00e9 \u00e9é 日\u65e5
""".split()
LINE_ENDINGS = [
    "\r\n", "\r", "\n", "\r\r\n", "\n\r", "\r\n\r\n", "\n\n", "\r\r", "\\\r\n", "\\\r", "\\\n", "\\\n  ", "\\\r\n\t\f x", "\\\\\n",
    "\\\\\r\n", "\\\\\\\n", "\\\r\n\r\n", "\\\n\r", "\\\n#no", "\\\n\\\n", "\\\r\\\n\\\r\n", "\\\n = v", "\\\n\n", "\n#c\\\n", "\n#c \\u12\n",
    "\n! \r\n k2=v2", "\r\n#\r\n!\r\n", "\n \t\f\n", "\n\\u00e9=2", "\\u00\\\ne9", "\\ud83d\\\n\\ude00", "\\ud83d\\\r\n  \\ude00", "\\ud8\\\n3d",
]
CHARACTERS = [
    " ", "\t", "\f", "\v", "\x85", "\xa0", "\u2028", "=", ":", " = ", " : : ", "\t=\t", "==", " \\ = ", "\\\t", "  ", "!", "#", "!#:=\\!",
    "\0", "\1\x1f\x7f", "\x80\x9f", "é", "ÿ", "\x80", "€", "“ja” –", "Œ", "\u0100", "\u07ff", "\u0800", "日本", "\ud7ff", "\ue000", "\ufeff",
    "\ufffd", "\uffff", "😀", "\U00010000", "\U0010ffff", "éa", "aé", "a\tb", "\tq\té",
]
# In windows-1252 and UTF-8: lone tails, bytes that begin no sequence, sequences that are cut, too long forms, surrogates, what is past
# the last character, bytes that are no tails, one tail too many, and the least and the greatest of what is right.
SEQUENCES = [bytes.fromhex(text) for text in """
80 8f 90 9f a0 bf 8080 bfbfbf c0 c1 f5 f7 f8 fc fe ff c080 c1bf f5808080 f8808080 fefe ffff c2 df e0 e0a0 e1 e180 ec ed ed80 ee ee80 ef
efbf f0 f090 f09080 f1 f180 f18080 f3 f4 f480 f48080 e080 e08080 e09fbf e0c080 eda0 eda080 edbfbf eda0bdedb880 f080 f0808080 f08fbfbf
f490 f4908080 f4bfbfbf c27f c241 c2c2 c2e1 dfc0 e141 e17f80 e1c080 e18041 e1807f e180c0 e1e18080 f14141 f17f8080 f1c08080 f1804180
f1807f80 f180c080 f1808041 f180807f f18080c0 f1f1808080 c28080 e1808080 f180808080 c280 dfbf e0a080 e0bfbf e18080 ecbfbf ed8080 ed9fbf
ee8080 efbfbd efbfbf efbbbf f0908080 f0bfbfbf f1808080 f3bfbfbf f4808080 f48fbfbf c280e18080f0908080 41c28041 e2 e282 818d8f909d 938594
""".split()]
# In UTF-16: surrogates alone, in pairs and the wrong way round, and units of which one byte is that of a line ending or a backslash.
UNITS = [[int(unit, 16) for unit in text.split("-")] for text in """
d800 dbff dc00 dfff d83d-de00 de00-d83d d83d-d83d-de00 d83d-de00-de00 d83d-41 d83d-a d83d-5c-a 5c-d83d 5c-de00 5c-d83d-de00 feff fffe
0a0a 0d0d 0d0a 0a0d 5c5c 5c0a 0a5c 3d3d 2020 0a00 0d00 5c00 3d00 ff5c 5cff d80a dc0d d-a d-a0a 5c-d-a 80 ff 100 2028 5c-75-d800-30-30
""".split()]
# What fills the bytes before an end, and after it.
FILLS = ["a", "a", "é", "日", "😀", "aé", "a日é😀", "word ", "!", "\\t", "\\u00e9", "\\u4e2d", " ", "\\\n", "a\tb€"]
KEYS = ["k", "k2", "a", "a", "key", "é", "日", "a b", ""]


def coded(text, encoding):
    if encoding != "windows-1252":
        return text.encode(ENCODINGS[encoding])
    return text.encode("latin-1" if max(text, default="") < "\u0100" else "cp1252", "replace")


def filling(draw, length, encoding):
    """Bytes of that length: characters of a kind, so that they end where it does."""
    text = coded(draw.choice(FILLS), encoding)
    some = coded("a", encoding) * length
    return some[: length % len(text)] + text * (length // len(text))


def rare_parts():
    """Each encoding with what may stand at an end in it."""
    for text in ESCAPES + LINE_ENDINGS + CHARACTERS:
        for encoding in ENCODINGS:
            yield encoding, coded(text, encoding)
    for sequence in SEQUENCES:
        for encoding in ["utf-8"] * 6 + ["windows-1252"]:
            yield encoding, sequence
    for units in UNITS:
        for encoding, order in (("utf-16le", "little"), ("utf-16be", "big")):
            yield encoding, b"".join(unit.to_bytes(2, order) for unit in units)


def at_an_end(draw, encoding, part, turn):
    """A line in which the part stands at an end, or across it, in each turn at another one, with lines before and after it.

    The end is counted from where the file, the line or the value begins.
    """
    lines = b"".join(coded(draw.choice(["a=b", "#c", "", "k\\\n=v", "k2 : é"]) + draw.choice(["\n", "\r\n", "\r"]), encoding)
                     for _ in range(draw.choice([0, 0, 0, 1, 3, 9])))
    front = coded(draw.choice(["k=", "k=", "k = ", "", "", "# ", "a\\ b:", "  k2\t"]), encoding)
    unit = 2 if encoding.startswith("utf-16") else 1
    places = len(part) // unit + 2
    end = ENDS[turn // places % len(ENDS)] if draw.random() < 0.97 else BUFFER
    counted = draw.choice([lines + front, front, front, b""])
    start = end - len(counted) - unit * (turn % places - 1)
    while start < 0:
        start += end
    after = draw.choice([
        b"", coded("z", encoding), filling(draw, 16 * unit, encoding),
        *(filling(draw, unit * draw.randint(1, 90), encoding) for _ in range(4)),
        filling(draw, unit * draw.randint(40, 80), encoding) + part + coded("=x", encoding), part, coded("\nk2=v2\n", encoding),
        coded("  y\r\n#", encoding) + filling(draw, 32 * unit, encoding),
    ])
    return lines + front + filling(draw, start, encoding) + part + after


def many_lines(draw, encoding):
    """Lines of few keys, with line endings of all kinds."""
    words = ["v", "v", "a word", "é", "日", "\\u00e9", "\\t", "=", " ", "\\\\", "\\\n  ", "\\\r\n"]
    value = lambda: "".join(draw.choices(words, k=draw.randrange(5)))
    key = lambda: draw.choice(["", "", "  "]) + draw.choice(KEYS).replace(" ", "\\ ")
    kinds = [
        lambda: key() + draw.choice(["=", " = ", ":", " ", "\t:", ""]) + value(),
        lambda: draw.choice("#!") + value().replace("\\\n", "").replace("\\\r\n", ""),
        lambda: draw.choice(["", " ", "\t"]),
    ]
    text = "".join(draw.choices(kinds, [6, 1, 1])[0]() + draw.choice(["\n", "\n", "\r\n", "\r"]) for _ in range(draw.randint(1, 40)))
    return coded(text + draw.choice(["", "", "a=last", "k2", "k=open\\", "#c", "\\"]), encoding)


def soup(draw, encoding):
    """Anything, in any order."""
    parts = draw.choices(ESCAPES + LINE_ENDINGS + CHARACTERS + ["a", "k=", "word"] * 20, k=draw.randint(1, 40))
    mixed = b"".join(coded(part, encoding) if draw.random() < 0.9 else draw.choice(SEQUENCES) for part in parts)
    return mixed[draw.randrange(4):] if draw.random() < 0.1 else mixed


def adverse():
    """Yields the encoding of each input, and its bytes."""
    parts, turns = list(rare_parts()), collections.Counter()
    for number in range(COUNT):
        draw = random.Random(number)
        chance = draw.random()
        encoding, part = parts[number % len(parts)]
        if chance < 0.75:
            text = at_an_end(draw, encoding, part, turns[encoding, part])
            turns[encoding, part] += 1
        else:
            text = (many_lines if chance < 0.87 else soup)(draw, encoding)
        if draw.random() < 0.1:
            text = draw.choice(MARKS) + text
        if draw.random() < 0.1:
            text = text[: len(text) - draw.randint(1, 3)]
        yield draw, encoding if draw.random() < 0.9 else draw.choice(list(ENCODINGS)), text


def ordinary():
    """Yields each input of bench as it is in each encoding, and read as it stands in all others."""
    for name, (own, _) in inputs.NAMES.items():
        command = [sys.executable, os.path.join(os.path.dirname(os.path.realpath(__file__)), "inputs.py"), name, "1"]
        text = subprocess.run(command, stdout=subprocess.PIPE, check=True).stdout
        for encoding in ENCODINGS:
            yield name, encoding, text
            if encoding != own:
                yield f"{name} in {encoding}", encoding, text.decode(ENCODINGS[own], "replace").encode(ENCODINGS[encoding], "replace")


def edits(draw):
    """Two to twelve edits of few keys."""
    value = lambda: draw.choice(["", "v", "a new value", " é \\ = 日", "v" * draw.randrange(70)])
    return [word for _ in range(draw.randint(2, 12))
            for word in draw.choice([["set", "--", draw.choice(KEYS), value()], ["remove", draw.choice(KEYS)]])]


def asked(draw):
    """What propedit is asked for."""
    return [["check"], ["-v", "-z", "list"], ["convert", draw.choice(["utf-8", "windows-1252", "ascii"])],
            ["-r", "convert", draw.choice(["utf-8", "windows-1252"])], ["get", *draw.choices(KEYS, k=2)], edits(draw), edits(draw),
            ["-a", *edits(draw)], ["set", "--", draw.choice(KEYS), "é v"], ["remove", draw.choice(KEYS)]]


class Comparison:
    def __init__(self, folder):
        self.folder, self.kept, self.runs, self.differing = folder, None, 0, 0

    def answer(self, program, arguments):
        """What it prints on standard output and standard error, and its status; it reads the file `input`."""
        printed = [f"{self.folder}/out", f"{self.folder}/err"]
        fresh = os.O_WRONLY | os.O_CREAT | os.O_TRUNC
        actions = [(os.POSIX_SPAWN_OPEN, 0, f"{self.folder}/input", os.O_RDONLY, 0)]
        actions += [(os.POSIX_SPAWN_OPEN, number, path, fresh, 0o600) for number, path in enumerate(printed, 1)]
        child = os.posix_spawn(program, ["program", *arguments], os.environ, file_actions=actions)
        status = os.waitstatus_to_exitcode(os.waitpid(child, 0)[1])
        texts = []
        for path in printed:
            with open(path, "rb") as file:
                texts.append(file.read())
        return *texts, status

    def put(self, text):
        with open(f"{self.folder}/input", "wb") as file:
            file.write(text)

    def run(self, what, programs, arguments):
        self.runs += 1
        old, new = (self.answer(program, arguments) for program in programs)
        if old == new:
            return
        self.differing += 1
        if self.differing > SHOWN:
            return
        self.kept = self.kept or tempfile.mkdtemp(prefix="adverse-")
        shutil.copy(f"{self.folder}/input", f"{self.kept}/{self.differing}")
        parts = [name for name, one, other in zip(("output", "messages", "status"), old, new) if one != other]
        print(f"{what}: {', '.join(parts)} of {programs[1]} {' '.join(map(repr, arguments))} <{self.kept}/{self.differing}", flush=True)
        for one, other in zip(old, new):
            if one != other and isinstance(one, bytes):
                at = len(os.path.commonprefix([one, other]))
                print(f"    from byte {at}: {one[at:at + 30]} and {other[at:at + 30]}")
            elif one != other:
                print(f"    {one} and {other}")


def main(programs):
    if len(programs) not in (2, 4):
        sys.exit(__doc__.split("\n")[0])
    filters, editors = [os.path.abspath(path) for path in programs[:2]], [os.path.abspath(path) for path in programs[2:]]
    memory = "/dev/shm" if os.access("/dev/shm", os.W_OK) else None
    with tempfile.TemporaryDirectory(dir=memory) as folder:
        made = Comparison(folder)
        small = large = 0
        for name, encoding, text in ordinary():
            large += 1
            made.put(text)
            made.run(name, filters, [encoding])
            made.run(name, filters, [encoding, "ascii"])
            for words in asked(random.Random(large)) if editors else []:
                made.run(name, editors, ["-e", encoding, *words])
        for draw, encoding, text in adverse():
            small += 1
            made.put(text)
            made.run(f"adverse input {small}", filters, [encoding] if draw.random() < 0.6 else [encoding, "ascii"])
            if editors:
                made.run(f"adverse input {small}", editors, ["-e", encoding, *draw.choice(asked(draw))])
    print(f"{large} inputs of bench and {small} adverse ones, {made.runs} runs of each: {made.differing} differ")
    return 1 if made.differing else 0


if __name__ == "__main__":
    sys.exit(main(sys.argv[1:]))
