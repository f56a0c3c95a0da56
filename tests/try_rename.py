#!/usr/bin/env python3
"""Compares what propedit renames with files that this script puts together from parts, on 2,000 random files, or on
HOW_MANY of them from file FIRST on.

    tests/try_rename.py PROPEDIT [HOW_MANY [FIRST]]

Of each pair with the old key, the part that is its key becomes the new key, as `set` prints one, and all else stays. A
key that no pair has is refused, and then a new key that one has, with its line; a key that keeps its name changes
nothing. The pairs of the result are those of the file with the new key, and the way back gives the pairs of the file.

A list has up to six renames, which may be a chain, a swap or a way back, and may have edits of other kinds among them.
It gives what its edits give one after another: the script makes each on the parts, and asks the program only how it
prints a key or a value. A refused edit names its key and its line in what those before it left.
"""
import functools
import random
import re
import subprocess
import sys

KEYS = ["a", "b", "k", "é", "a b", ":", "", "ключ", "\\", "#", "\ufeffk", "a=b"]
LEADS = ["", "", "", "  ", "\\\n", " \\\r\n\\\n \t"]
SEPARATORS = ["=", " = ", ": ", " ", "\t", "\\\n  = ", " \\\n  "]
VALUES = ["", "1", "x\\\n  y", "# no", "a\\\\", "\\u00e9=", "C:\\\\tmp"]
OTHERS = ["", " \t", "# one \\", "  ! \\u12", "#"]
ENDS = ["\n", "\r\n", "\r"]
BLANKS = r"(?:[ \t]|\\(?:\r\n|\r|\n))*"
MARK = "\ufeff".encode()


def propedit(*words, data=b""):
    """The status, what propedit prints, and its message."""
    done = subprocess.run([PROPEDIT, *words], input=data, stdout=subprocess.PIPE, stderr=subprocess.PIPE, check=False)
    return done.returncode, done.stdout, done.stderr


# ---- files as their parts: pairs, each as its key and four texts, of which the second is the key, and other lines


def spelt(key, draw):
    """A key as a file may have it: each character as it is, if it may be, or as an escape, and some lines go on."""
    shown = ""
    for character in key:
        if shown and draw.random() < 0.1:
            shown += "\\\n  "
        if character in " :=#\\" and draw.random() < 0.8:
            shown += "\\" + character
        elif character in " :=#\\\ufeff" or draw.random() < 0.2:
            shown += f"\\u{ord(character):04x}"
        else:
            shown += character
    return shown


def drawn_file(draw):
    parts = []
    for _ in range(draw.randrange(1, 7)):
        if draw.random() < 0.25:
            parts.append((None, draw.choice(OTHERS), "", "", draw.choice(ENDS)))
            continue
        key, separator, value = draw.choice(KEYS), draw.choice(SEPARATORS), draw.choice(VALUES)
        written = spelt(key, draw)
        # Blanks and joins before the sign of an empty key come before the key.
        if not written:
            separator = draw.choice(["=", ": "])
        if not value and separator == " \\\n  ":
            separator = " "
        parts.append((key, draw.choice(LEADS), written, separator, value + draw.choice(ENDS)))
    if draw.random() < 0.3:
        key, lead, written, separator, value = parts[-1]
        parts[-1] = (key, lead, written, separator, value.rstrip("\r\n"))
    if draw.random() < 0.1:
        parts.insert(0, (None, "\ufeff", "", "", ""))
    return divided_at_ends(parts)


def divided_at_ends(parts):
    """The parts, where an LF that is alone and comes after a CR belongs to that line, and a part without bytes is none."""
    made = []
    for part in parts:
        text = "".join(part[1:])
        if made and made[-1][-1].endswith("\r") and text == "\n":
            made[-1] = (*made[-1][:-1], made[-1][-1] + "\n")
        elif text:
            made.append(part)
    return made


def whole(parts):
    return "".join("".join(part[1:]) for part in parts).encode()


def keys_of(parts):
    return list(dict.fromkeys(part[0] for part in parts if part[0] is not None))


def line_of(parts, key):
    """The line in which the first pair with a key begins."""
    before = whole(parts[: next(at for at, part in enumerate(parts) if part[0] == key)])
    return before.replace(b"\r\n", b"\n").replace(b"\r", b"\n").count(b"\n") + 1


@functools.lru_cache(None)
def printed(key, before, *options):
    """A new key as `set` prints it after these bytes."""
    before = before if before in (b"", MARK) else b"#\n"
    return propedit(*options, "set", "--", key, "", data=before)[1][len(before) :].decode()[:-2]


@functools.lru_cache(None)
def quoted(key):
    """A key as a message shows it."""
    return re.search("'.*'", propedit("rename", "--", key, "")[2].decode())[0]


# ---- edits of parts


class Refused(Exception):
    """What the message of a refused edit says."""


def renamed(parts, old, new, *options):
    if old not in keys_of(parts):
        raise Refused(f": no pair has the key {quoted(old)}")
    if old != new and new in keys_of(parts):
        raise Refused(f":{line_of(parts, new)}: the key {quoted(new)} is there already")
    made = []
    for key, lead, written, separator, value in parts:
        if key == old != new:
            key, written = new, printed(new, whole(made) + lead.encode(), *options)
            blanks = re.match(BLANKS, separator)[0]
            if not new and separator == blanks:
                separator = "=" + separator
            elif not new:
                # Blanks and joins before the sign of an empty key come before the key.
                lead, separator = lead + blanks, separator[len(blanks) :]
        made.append((key, lead, written, separator, value))
    return made


def removed(parts, key, with_comment):
    """The parts without the pairs with a key, and perhaps without the comment lines directly above them."""
    left, takes = [], False
    for part in reversed(parts):
        is_comment = part[0] is None and part[1].lstrip(" \t")[:1] in ("#", "!")
        takes = part[0] == key or with_comment and takes and is_comment
        if not takes:
            left.append(part)
    return divided_at_ends(left[::-1])


def with_value(parts, key, text, *options):
    """The parts in which `set` changed the value of the last pair with a key, or added a pair, and no other byte."""
    data = propedit(*options, "set", "--", key, text, data=whole(parts))[1].decode()
    at = max((at for at, part in enumerate(parts) if part[0] == key), default=None)
    if at is None:
        added = data.removeprefix(whole(parts).decode())
        end = re.match("[\r\n]*", added)[0]
        parts = [*parts[:-1], (*parts[-1][:-1], parts[-1][-1] + end)] if end else parts
        front, after = printed(key, whole(parts), *options), ""
        parts, lead, written = [*parts, None], "", front
        at = len(parts) - 1
    else:
        _, lead, written, _, _ = parts[at]
        front, after = lead + written, whole(parts[at + 1 :]).decode()
    front = whole(parts[:at]).decode() + front
    if not data.startswith(front) or not data.endswith(after) or len(data) < len(front + after):
        raise ValueError(f"set {key!r} {text!r} gives {data!r}")
    rest = data[len(front) : len(data) - len(after)]
    if not written:
        blanks = re.match(BLANKS, rest)[0]
        lead, rest = lead + blanks, rest[len(blanks) :]
    separator = re.match(BLANKS + "[=:]?", rest)[0]
    return [*parts[:at], (key, lead, written, separator, rest[len(separator) :]), *parts[at + 1 :]]


def made_in_turn(parts, edits, options):
    """The parts after a list of edits."""
    ascii_only, with_comment, run = [it for it in options if it == "-a"], "--with-comment" in options, None
    for what, key, *text in edits:
        # Edits that are made together ask which keys were there before the first of them.
        together = "rename" if what == "rename" else "removal" if what == "remove" and with_comment else "edit"
        if together != run:
            run, known = together, keys_of(parts)
        if what != "rename" and "-x" in options and key not in known:
            raise Refused(f": no pair has the key {quoted(key)}")
        if what == "rename":
            parts = renamed(parts, key, *text, *ascii_only)
        elif what == "set":
            parts = with_value(parts, key, *text, *ascii_only)
        else:
            parts = removed(parts, key, with_comment)
        # What would begin like a byte order mark gets a line feed, which a later edit may make needless.
        if parts and parts[0][1] != "\ufeff" and whole(parts).startswith(MARK):
            return None
    return parts


# ---- what is compared


def pairs(data):
    texts = propedit("list", "-v", "-z", data=data)[1].split(b"\0")
    return list(zip(texts[::2], texts[1::2]))


def check_renaming(parts, old, new, fail):
    """Compares a renaming with the parts, and returns what came of it."""
    data = whole(parts)
    status, result, message = propedit("rename", "--", old, new, data=data)
    try:
        wanted = whole(renamed(parts, old, new))
    except Refused as why:
        if (status, result, message.decode()) != (1, b"", f"propedit: standard input{why}\n"):
            fail(f"{status, result, message}, and not a message {why}")
        return "taken" if "already" in str(why) else "no key"
    if (status, result, message) != (0, wanted, b""):
        fail(f"{status, result, message}, and not {wanted}")
    if old == new:
        return "same"
    names, before = {old.encode(): new.encode()}, pairs(data)
    if pairs(result) != [(names.get(key, key), value) for key, value in before]:
        fail("other pairs")
    if pairs(propedit("rename", "--", new, old, data=result)[1]) != before:
        fail("the way back gives other pairs")
    return "renamed"


def drawn_renames(keys, draw):
    """Renames of keys: a way through several names, a chain, a swap or a ring, each to a name of its own, or any."""
    free = [key for key in [*KEYS, "t", "u", "v", "w", "x", "y"] if key not in keys]
    draw.shuffle(keys)
    draw.shuffle(free)
    way = [*keys[:1], *free[: draw.randrange(1, 6)], *keys[: draw.randrange(2)]]
    chain = list(zip(keys, [free[0], *keys]))
    ring = [*chain[:5], *((free[0], key) for key in keys[4::-1][:1])]
    apart = list(zip(keys, free))
    anything = [(draw.choice(keys + KEYS), draw.choice(free + KEYS)) for _ in range(draw.randrange(1, 6))]
    return draw.choice([list(zip(way, way[1:])), chain[:6], ring, apart[:6], anything])


def drawn_list(parts, draw):
    edits = [("rename", *names) for names in drawn_renames(keys_of(parts), draw)] or [("rename", "a", "b")]
    if draw.random() < 0.2:
        edits.insert(draw.randrange(len(edits) + 1), ("rename", draw.choice(KEYS), draw.choice(KEYS)))
    for _ in range(draw.choice([0, 0, 1, 2, 3])):
        key = draw.choice([*(it for edit in edits for it in edit[1:]), *KEYS])
        edits.insert(draw.randrange(len(edits) + 1), draw.choice([("set", key, draw.choice(KEYS)), ("remove", key)]))
    return edits


def check_list(parts, draw, fail):
    """Compares a list of edits with what the script makes of the parts, and returns what came of it."""
    edits = drawn_list(parts, draw)
    removes = any(edit[0] == "remove" for edit in edits)
    options = [*draw.choice([[], [], ["-a"], ["-x"], ["-a", "-x"]]), *["--with-comment"] * (removes and draw.random() < 0.4)]
    try:
        made = made_in_turn(parts, edits, options)
        if made is None:
            return "list that isn't compared"
        wanted, what = (0, whole(made), b""), "list"
    except Refused as why:
        made, wanted, what = None, (1, b"", f"propedit: standard input{why}\n".encode()), "refused list"
    words = [word for edit, *texts in edits for word in (edit, "--", *texts)]
    got = propedit(*options, *words, data=whole(parts))
    if got != wanted:
        fail(f"{options + words} gives {got}, and not {wanted}")
    if made is not None and [key.decode() for key, _ in pairs(got[1])] != keys_of(made):
        fail(f"{options + words} leaves other keys than {keys_of(made)}")
    return what


def main():
    told = {"renamed": 0, "no key": 0, "taken": 0, "same": 0}
    for number in range(FIRST, FIRST + HOW_MANY):
        draw = random.Random(number)
        parts = drawn_file(draw)
        keys = [part[0] for part in parts if part[0] is not None]
        old = draw.choice(keys if keys and draw.random() < 0.9 else KEYS)
        new = draw.choice(keys if keys and draw.random() < 0.2 else KEYS)
        fail = lambda why: sys.exit(f"file {number}, {whole(parts)}: {why}")
        for what in (
            check_renaming(parts, old, new, lambda why: fail(f"{old!r}, {new!r}: {why}")),
            check_list(parts, draw, fail),
        ):
            told[what] = told.get(what, 0) + 1
    print(f"{HOW_MANY} files:", ", ".join(f"{count} {what}" for what, count in told.items()))


if len(sys.argv) not in (2, 3, 4):
    sys.exit(__doc__)
PROPEDIT = sys.argv[1]
HOW_MANY, FIRST = [*map(int, sys.argv[2:]), *(2000, 0)[len(sys.argv) - 2 :]]
main()
