#!/usr/bin/env python3
"""Runs the rows of the tables of crates/*ing_vectors through the module todrenval, and tries what no row says.

    TODRENVAL_LIBRARY=FOLDER/libtodrenval.so.2 bindings/python/test_rows.py [LENGTH]

It prints what doesn't hold, how many rows are left out and why, and last how many checks passed and failed. LENGTH is how
long the files are that are made of each choice of a few characters: 6 if it isn't given; 7 takes half a minute more.
docs/TABLES.md has the notation.
"""
import array
import contextlib
import ctypes
import doctest
import errno
import inspect
import io
import itertools
import mmap
import os
import pathlib
import pickle
import random
import re
import stat
import struct
import sys
import tempfile
import threading
import types
import typing
from copy import copy as copy_of, deepcopy

sys.path.insert(0, str(pathlib.Path(__file__).resolve().parent))
import todrenval  # noqa: E402
from todrenval import Comment, Pair, PropertiesError, RemoveKey, RemoveWithComment, RenameKey, SetComment  # noqa: E402
from todrenval import SetKey, SetValue, Status  # noqa: E402

TOP = pathlib.Path(__file__).resolve().parent.parent.parent
PROGRAMS = "crates/*ing_vectors"
KINDS = {
    Status.NOT_ENOUGH_DIGITS: "NotEnoughDigits",
    Status.NOT_HEX: "NotHex",
    Status.INVALID_CHARACTER: "InvalidCharacter",
    Status.UNSUPPORTED: "Unsupported",
}


class LeftOut(Exception):
    """The interface for C doesn't have what the row is about."""


# The notation.

CHARACTERS = {"n": "\n", "r": "\r", "t": "\t", "f": "\f", "0": "\0", "\\": "\\", '"': '"', "'": "'"}
ESCAPE = re.compile(r"\\(?:x([0-9a-f]{2})|u\{([0-9a-f]+)\}|(.))")
QUOTED = re.compile(r'"((?:[^"\\]|\\.)*)"')


def as_bytes(text):
    """The bytes of a text of a left side, or of bytes of a right side."""
    out, place = b"", 0
    for found in ESCAPE.finditer(text):
        out += text[place : found.start()].encode()
        byte, code, short = found.groups()
        out += bytes([int(byte, 16)]) if byte else (chr(int(code, 16)) if code else CHARACTERS[short]).encode()
        place = found.end()
    return out + text[place:].encode()


def as_text(text):
    """The characters of a text of a right side."""
    return ESCAPE.sub(lambda found: chr(int(found[1] or found[2], 16)) if found[1] or found[2] else CHARACTERS[found[3]], text)


def split(side):
    """The parts between semicolons that are in no quotes."""
    return [part.strip() for part in re.findall(r'(?:[^";]|"(?:[^"\\]|\\.)*")+', side)]


def clauses(side):
    """Of each clause its word and its texts."""
    found = []
    for part in split(side):
        word, quote, _ = part.partition('"')
        found.append((word.strip(), [as_bytes(text) for text in QUOTED.findall(part)] if quote else []))
    return found


def texts_of(part):
    """The texts in quotes of a right side, of which one may be counted, as in `5000 'y' "z"`."""
    pattern = re.compile(r'(?:(\d+) \'((?:[^\'\\]|\\.)+)\' )?"((?:[^"\\]|\\.)*)"')
    return [int(count or 0) * as_text(character) + as_text(rest) for count, character, rest in pattern.findall(part)]


# What came, and what is wanted, as the same values.


def error_of(part):
    """The error that a part of a right side is, as its kind and line, or None."""
    found = re.fullmatch(r"(NotEnoughDigits|NotHex|InvalidCharacter|Unsupported)(?: in line (\d+))?(?: by NotHex)?", part)
    return ("error", found[1], int(found[2]) if found[2] else None) if found else None


def came_error(error):
    return ("error", KINDS[error.status], error.line)


def wanted_items(parts):
    wanted = []
    for part in parts:
        found = re.match(r"(comment|pair) (\d+) ", part)
        if found:
            kind = Comment if found[1] == "comment" else Pair
            wanted.append(kind(*texts_of(part[found.end() :]), line=int(found[2])))
        elif part != "nothing":
            wanted.append(error_of(part) or part)
    return wanted


def came_items(data, encoding):
    try:
        return list(todrenval.items(data, encoding=encoding, errors="replace"))
    except PropertiesError as error:
        return [*error.items, came_error(error)]


# Each kind of rows. A function is given the encoding and the sides, and returns what came and what is wanted.


def input_of(left):
    """The bytes of an input that is read, whose pieces are joined."""
    data = b""
    for word, texts in clauses(left):
        if word.startswith("fault"):
            raise LeftOut("I/O errors of a reader")
        data += int(word or 1) * texts[0]
    return data


def read(encoding, left, right):
    data = input_of(left)
    yield came_items(data, encoding), wanted_items(split(right))


def read_pairs(encoding, left, right):
    data = input_of(left)
    came = [item[:2] if isinstance(item, Pair) else item for item in came_items(data, encoding) if not isinstance(item, Comment)]
    wanted = [error_of(part) or tuple(texts_of(part)) for part in split(right) if part != "nothing"]
    yield came, wanted


def read_map(encoding, left, right):
    data = input_of(left)
    try:
        came = sorted(todrenval.loads(data, encoding=encoding, errors="replace", comments="read").items())
    except PropertiesError as error:
        came = [came_error(error)]
    wanted = [error_of(part) or tuple(texts_of(part)) for part in split(right) if part != "nothing"]
    yield came, wanted
    if came == wanted and not any(pair[0] == "error" for pair in wanted):
        for comments in ("skip", "read"):
            named = {"encoding": encoding, "errors": "replace", "comments": comments}
            yield [(key, todrenval.get(data, key, **named)) for key, _ in wanted], wanted
            yield sorted(todrenval.loads(data, **named).items()), wanted
            yield dict(todrenval.Document(data, **named)), dict(wanted)


def read_print(encoding, left, right):
    data = input_of(left)
    came = []
    try:
        came = todrenval.items(data, encoding=encoding, errors="replace")
    except PropertiesError as error:
        came = [*error.items, f"{error.reason} (line_number = {error.line})"]
    wanted = []
    for part in split(right):
        found = re.match(r"Line \{line_number: (\d+), content: (Comment|KVPair)\(", part)
        kind = found and (Comment if found[2] == "Comment" else Pair)
        wanted.append(kind(*texts_of(part), line=int(found[1])) if found else part)
    yield came, wanted


SETTINGS = {
    "ascii-only": ("ascii_only", True),
    "all-characters": ("ascii_only", False),
    "readable": ("readable", True),
    "escaped": ("readable", False),
}
TEXTS = ("prefix", "separator", "ending")


def lines_of(calls):
    """The lines that calls of a writer write, and with which settings."""
    lines, settings = [], {"ascii_only": False, "readable": False}
    for word, texts in calls:
        if word in SETTINGS or word in TEXTS:
            if lines:
                raise LeftOut("settings that change between lines")
            settings.update([SETTINGS[word] if word in SETTINGS else (word, texts[0].decode())])
        elif word == "comment":
            lines.append(Comment(texts[0].decode()))
        elif word == "pair":
            lines.append((texts[0].decode(), texts[1].decode()))
        elif word.startswith("sink"):
            raise LeftOut("sinks that fail or take little")
        elif word not in ("flush", "finish", "nothing"):
            raise ValueError(word)
    return lines, settings


def written_in(encoding):
    return "utf-8" if encoding.startswith("utf-16") else encoding


def is_reading(word):
    return word.startswith("read ")


def written(lines, encoding, settings):
    """The bytes, or the kind of a call that was refused. In the tables such a call is passed over."""
    try:
        return todrenval.dumps(lines, encoding=encoding, **settings)
    except PropertiesError as error:
        return REFUSED[error.status]


REFUSED = {Status.BAD_PREFIX: "BadCommentPrefix", Status.BAD_SEPARATOR: "BadKvSeparator", Status.EMPTY_KEY: "EmptyKey"}


def write(encoding, left, right):
    calls = clauses(left)
    lines, settings = lines_of([call for call in calls if not is_reading(call[0])])
    came = written(lines, encoding, settings)
    parts = split(right)
    refused = [part for part in parts if re.match(r"\d+: ", part)]
    if refused:
        yield came, refused[0].partition(": ")[2]
        return
    yield came, as_bytes(QUOTED.fullmatch(parts[0])[1])
    readings = [word.split()[1] for word, _ in calls if is_reading(word)]
    yield [item for name in readings for item in came_items(came, name)], wanted_items(parts[1:])


def write_map(encoding, left, right):
    lines, settings = lines_of(clauses(left))
    came = written(dict(sorted(lines)), encoding, settings)
    parts = split(right)
    if len(parts) > 1:
        yield came, parts[0].partition(": ")[2] or parts[0]
        return
    yield came, as_bytes(QUOTED.fullmatch(parts[0])[1])
    yield todrenval.loads(came, encoding=written_in(encoding)), dict(lines)


def copy(encoding, left, right):
    given = clauses(left)
    sinks = [word for word, _ in given if word.startswith("sink")]
    if sinks:
        raise LeftOut("sinks that fail or take little")
    (_, (data,)), (into, _), *calls = given
    lines, settings = lines_of(calls)
    items = came_items(data, encoding)
    lines += [item for item in items if isinstance(item, Pair)]
    came = [written(lines, into.split()[1], settings)]
    came += [item for item in items if not isinstance(item, (Comment, Pair))]
    bytes_part, *errors = split(right)
    refused = [part[6:] for part in errors if part.startswith("write ")]
    wanted = [refused[0] if refused else as_bytes(QUOTED.fullmatch(bytes_part)[1])]
    wanted += [error_of(part[5:]) or part for part in errors if part.startswith("read ")]
    yield came, wanted


def steps_of(steps):
    """The edits of a row, each with its setting, the keys that are got after so many of them, and the readings."""
    edits, asked, readings, ascii_only = [], [], [], False
    for word, texts in steps:
        words = [text.decode() for text in texts]
        if word in EDITS:
            edits.append((ascii_only, EDITS[word](*words)))
        elif word == "get":
            asked.append((len(edits), words[0]))
        elif is_reading(word):
            readings.append(word.split()[1])
        elif word in ("ascii-only", "all-characters"):
            ascii_only = word == "ascii-only"
        else:
            raise ValueError(word)
    return edits, asked, readings


def values_of(parts):
    return [None if part == "none" else texts_of(part)[0] for part in parts]


def edit(encoding, left, right):
    (_, (source,)), *steps = clauses(left)
    edits, asked, readings = steps_of(steps)
    parts = split(right)
    wanted = error_of(parts[0]) or as_bytes(QUOTED.fullmatch(parts[0])[1])
    came = changed(source, encoding, edits)
    yield came, wanted
    if len(edits) == 1:
        yield by_single_call(source, encoding, *edits[0]), wanted
    if isinstance(wanted, tuple):
        # A source that is refused where comments are read is refused whatever is to be changed.
        for single in [SetKey("a", "b"), SetValue("a", "b"), RemoveKey("a"), RemoveKey("none")]:
            for ascii_only in (False, True):
                yield by_single_call(source, encoding, ascii_only, single), wanted
        return
    yield changed(source, encoding, edits, "skip"), wanted
    yield by_document(source, encoding, edits), wanted
    named = {"encoding": encoding, "errors": "replace"}
    seen = [todrenval.get(changed(source, encoding, edits[:count]), key, **named) for count, key in asked]
    yield seen, values_of(parts[1 : 1 + len(asked)])
    yield [item for name in readings for item in came_items(came, name)], wanted_items(parts[1 + len(asked) :])


def edit_pairs(encoding, left, right):
    (_, (source,)), *steps = clauses(left)
    edits, asked, _ = steps_of(steps)
    parts = split(right)
    wanted = error_of(parts[0]) or as_bytes(QUOTED.fullmatch(parts[0])[1])
    came = changed(source, encoding, edits, "skip")
    yield came, wanted
    if len(edits) == 1:
        yield by_single_call(source, encoding, *edits[0], comments="skip"), wanted
    if not isinstance(wanted, tuple):
        yield [todrenval.get(came, key, encoding=encoding, errors="replace", comments="skip") for _, key in asked], values_of(parts[1:])


def get_pairs(encoding, left, right):
    (_, (source,)), *steps = clauses(left)
    parts = split(right)
    error = error_of(parts[0])
    wanted = [error] * len(steps) if error else values_of(parts)
    keys = [key.decode() for _, (key,) in steps]
    yield [got(source, key, encoding) for key in keys], wanted
    for load in (todrenval.loads, todrenval.Document):
        yield [loaded(load, source, key, encoding) for key in keys], wanted


def convert(encoding, left, right):
    (_, (source,)), (word, _) = clauses(left)
    *words, to = word.split()
    if words not in (["to"], ["readable", "to"]):
        raise ValueError(word)
    came = todrenval.convert(source, to, encoding=encoding, errors="replace", readable="readable" in words)
    yield came, as_bytes(QUOTED.fullmatch(right)[1])


EDITS = {"put": SetKey, "value": SetValue, "remove": RemoveKey}


def changed(source, encoding, edits, comments="read"):
    """The source after the edits, of which those that follow one another with the same setting are a list. In rows of
    `edit` comments are read."""
    try:
        for ascii_only, run in itertools.groupby(edits or [(False, None)], lambda edit: edit[0]):
            run = [edit for _, edit in run if edit is not None]
            named = {"encoding": encoding, "errors": "replace", "ascii_only": ascii_only, "comments": comments}
            source = todrenval.edit(source, run, **named)
        return source
    except PropertiesError as error:
        return came_error(error)


def by_document(source, encoding, edits):
    """The same by a document, which has no edit that prints the whole pair: that one is made to its bytes."""
    for ascii_only, single in edits:
        document = todrenval.Document(source, encoding=encoding, errors="replace", ascii_only=ascii_only)
        if isinstance(single, SetKey):
            document = changed(source, encoding, [(ascii_only, single)], "skip")
        elif isinstance(single, SetValue):
            document[single.key] = single.value
        else:
            document.pop(single.key, None)
        source = bytes(document)
    return source


def by_single_call(source, encoding, ascii_only, single, comments="read"):
    named = {"encoding": encoding, "errors": "replace", "comments": comments}
    try:
        if isinstance(single, RemoveKey):
            return todrenval.remove_key(source, single.key, **named)
        call = todrenval.set_key if isinstance(single, SetKey) else todrenval.set_value
        return call(source, single.key, single.value, ascii_only=ascii_only, **named)
    except PropertiesError as error:
        return came_error(error)


def got(source, key, encoding):
    """The value of a key, past comments, or the error."""
    try:
        return todrenval.get(source, key, encoding=encoding, errors="replace", comments="skip")
    except PropertiesError as error:
        return came_error(error)


def loaded(load, source, key, encoding):
    """The value that a key has in a mapping of the source, or the error."""
    try:
        return load(source, encoding=encoding, errors="replace").get(key)
    except PropertiesError as error:
        return came_error(error)


LINE_ENDING = re.compile(rb"\r\n|\r|\n")


def shown(data, group):
    """A group as a row shows it: its kind, lines, key and value, seven places, and what is wrong."""
    key_end, end = group.spans.key_end, group.spans.end
    kind, texts = "blank", ["", ""]
    if isinstance(group.item, Pair):
        kind, texts = "pair", [group.item.key, group.item.value]
    elif isinstance(group.item, Comment):
        # What comes before the sign may be a joined line.
        kind, texts = "comment", [data[key_end - 1 : key_end].decode(), group.item.text]
    wrong = []
    if group.flaw:
        wrong.append((KINDS[group.flaw.status], group.flaw.start, group.flaw.line, group.flaw.column))
    if group.ill_formed_line:
        wrong.append(("ill-formed", group.ill_formed_line))
    last = group.line + len(LINE_ENDING.findall(data[group.spans.start : end]))
    return (kind, group.line, last, *texts, *group.spans, *wrong)


def view(encoding, left, right):
    data = input_of(left)
    wanted = []
    for part in split(right):
        kind, _, rest = part.partition(" ")
        if rest == "":
            wanted += [] if kind == "nothing" else [("error", kind, None)]
            continue
        first, _, last = rest.partition(" ")[0].partition("-")
        texts = [as_bytes(text).decode() for text in QUOTED.findall(rest)]
        words = rest[rest.rindex('"') + 1 :].split()
        told = " ".join(words[7:])
        wrong = [(how, int(at), int(line), int(column)) for how, at, line, column in re.findall(r"(\w+) at (\d+) in (\d+):(\d+)", told)]
        wrong += [("ill-formed", int(line)) for line in re.findall(r"ill-formed (\d+)", told)]
        wanted.append((kind, int(first), int(last or first), *texts, *map(int, words[:7]), *wrong))
    try:
        came = [shown(data, group) for group in todrenval.groups(data, encoding=encoding, errors="replace", raw=True)]
    except PropertiesError as error:
        came = [came_error(error)]
    yield came, wanted


def left_out(why):
    def leave(*_):
        raise LeftOut(why)
        yield

    return leave


ROWS = {
    "read": read,
    "read-pairs": read_pairs,
    "read-map": read_map,
    "read-print": read_print,
    "write": write,
    "write-map": write_map,
    "copy": copy,
    "edit": edit,
    "edit-pairs": edit_pairs,
    "get-pairs": get_pairs,
    "convert": convert,
    "view": view,
    "write-print": left_out("how errors of a writer print"),
    "compare": left_out("the order of lines"),
    "label": left_out("labels of the WHATWG Encoding Standard"),
}


class Count:
    def __init__(self):
        self.passed = 0
        self.failed = 0

    def check(self, holds, text):
        if holds:
            self.passed += 1
        else:
            self.failed += 1
            print(text)


def run_tables(count):
    rows, reasons = 0, {}
    for path in sorted(TOP.glob(f"{PROGRAMS}/data/*.txt")):
        function, encodings = None, []
        for number, line in enumerate(path.read_text(encoding="utf-8").split("\n"), 1):
            line = line.strip()
            if not line or line.startswith("#"):
                continue
            left, bar, right = line.partition("|")
            if not bar:
                kind, *encodings = line.split()
                function = ROWS[kind]
                continue
            for encoding in encodings:
                rows += 1
                place = f"{path.name}:{number}, {encoding}"
                try:
                    for came, wanted in function(encoding, left.strip(), right.strip()):
                        count.check(came == wanted, f"{place}: {came!r} in place of {wanted!r}")
                except LeftOut as why:
                    reasons[str(why)] = reasons.get(str(why), 0) + 1
                except Exception as error:  # noqa: BLE001
                    count.check(False, f"{place}: {error!r}")
    stored = re.findall(r": (\d+) rows hold", "".join(path.read_text() for path in TOP.glob(f"{PROGRAMS}/stdout")))
    count.check(rows == sum(map(int, stored)), f"{rows} rows of tables")
    run = rows - sum(reasons.values())
    print(f"{run} of {rows} rows of tables were run. Left out:")
    for why, number in sorted(reasons.items()):
        print(f"  {number:3} of {why}")


# What no row says.


def raised(call, *arguments, **named):
    try:
        call(*arguments, **named)
    except Exception as error:  # noqa: BLE001
        return error
    return None


def try_arguments(count):
    with tempfile.TemporaryFile() as file:
        file.write(b"a=1")
        file.flush()
        for data in (b"a=1", bytearray(b"a=1"), memoryview(b"a=1"), mmap.mmap(file.fileno(), 0), array.array("B", b"a=1")):
            count.check(todrenval.loads(data) == {"a": "1"}, f"loads of {type(data)}")
            count.check(todrenval.set_value(data, "a", "2") == b"a=2", f"set_value of {type(data)}")
    for label in "latin-1 latin1 iso-8859-1 ISO_8859-1 cp1252 windows-1252 utf-8 UTF8 utf-8-sig".split():
        count.check(todrenval.loads(b"a=1", encoding=label) == {"a": "1"}, label)
    for label, name in (("utf-16-le", "utf-16-le"), ("utf-16-be", "utf-16-be"), ("utf-16", "utf-16-le"), ("UTF-16LE", "utf-16-le")):
        count.check(todrenval.loads("a=\u20ac".encode(name), encoding=label) == {"a": "\u20ac"}, label)
    count.check(todrenval.loads("a=\u20ac".encode()) == {"a": "\u20ac"}, "the default encoding")
    count.check(todrenval.loads(b"a=\x80", encoding="iso-8859-1") == {"a": "\u20ac"}, "iso-8859-1")
    count.check(todrenval.set_key(b"", "a", "\u20ac") == b"a=\\u20ac\n", "ASCII only")
    calls = [
        (todrenval.loads, []),
        (todrenval.items, []),
        (todrenval.groups, []),
        (todrenval.findings, []),
        (todrenval.get, ["a"]),
        (todrenval.set_value, ["a", "b"]),
        (todrenval.set_key, ["a", "b"]),
        (todrenval.remove_key, ["a"]),
        (todrenval.remove_with_comment, ["a"]),
        (todrenval.edit, [[]]),
        (todrenval.convert, ["ascii"]),
        (todrenval.Document, []),
    ]
    for call, more in calls:
        for wrong in ("a=1", 3, None, ["a"]):
            count.check(isinstance(raised(call, wrong, *more), TypeError), f"{call.__name__} of {wrong!r}")
        count.check(isinstance(raised(call, b"", *more, "utf-8"), TypeError), f"{call.__name__}, an encoding by its place")
        for label in ("koi8-r", "ascii", "none such"):
            count.check(isinstance(raised(call, b"", *more, encoding=label), LookupError), f"{call.__name__} in {label}")
        for wrong in ("ignore", "", None, 3):
            count.check(type(raised(call, b"", *more, errors=wrong)) is ValueError, f"{call.__name__}, errors {wrong!r}")
        for data, encoding, line, decoded in NOT_TEXT:
            error = raised(call, data, *more, encoding=encoding)
            place = f"{call.__name__} of {data!r}: {error!r}"
            count.check(type(error) is PropertiesError and (error.status, error.line) == (Status.NOT_TEXT, line), place)
            count.check(error.reason == f"Not text of {decoded}.", place)
            edits = ("set_value", "set_key", "remove_key", "remove_with_comment", "edit")
            unsupported = decoded != "utf-8" and call.__name__ in (*edits, "groups")
            error = raised(call, data, *more, encoding=encoding, errors="replace")
            count.check(error is None or unsupported and error.status == Status.UNSUPPORTED, f"{place}, replaced")
    for label, name in (("US-ASCII", "ascii"), ("windows-1252", "cp1252"), ("UTF8", "utf-8"), ("L1", "iso-8859-1")):
        came = todrenval.convert(b"\xe9=\xe9", label, encoding="cp1252")
        count.check(came == todrenval.convert(b"\xe9=\xe9", name, encoding="cp1252"), f"convert to {label}")
    for label in ("iso-8859-15", "utf-8-sig", "utf-16", "utf-16-le", "koi8-r", "none such"):
        count.check(isinstance(raised(todrenval.convert, b"", label), LookupError), f"convert to {label}")
    for wrong in (3, b"a", None):
        count.check(isinstance(raised(todrenval.convert, b"", wrong), TypeError), f"convert to {wrong!r}")
        count.check(isinstance(raised(todrenval.get, b"", wrong), TypeError), f"get of {wrong!r}")
        count.check(isinstance(raised(todrenval.set_value, b"", "a", wrong), TypeError), f"set_value of {wrong!r}")
        count.check(isinstance(raised(todrenval.dumps, {"a": wrong}), TypeError), f"dumps of {wrong!r}")
        count.check(isinstance(raised(todrenval.dumps, [wrong]), TypeError), f"dumps of {wrong!r}")
        count.check(isinstance(raised(todrenval.dumps, [], prefix=wrong), TypeError), f"a prefix {wrong!r}")
        count.check(isinstance(raised(todrenval.dumps, [], ending=wrong), ValueError), f"an ending {wrong!r}")
        count.check(isinstance(raised(todrenval.edit, b"", [wrong]), TypeError), f"edit of {wrong!r}")
        count.check(isinstance(raised(todrenval.edit, b"", [(wrong, "a")]), TypeError), f"edit of a key {wrong!r}")
        count.check(isinstance(raised(todrenval.edit, b"", [SetValue("a", wrong)]), TypeError), f"edit to {wrong!r}")
    for call, more, text in (
        (todrenval.loads, ["a=1"], "a file is bytes, not str; encode it, or give a path to load or open"),
        (todrenval.loads, [3], "a file is bytes, not int; load and open take a path"),
        (todrenval.dumps, [{"port": 8080}], "the value of 'port' has to be a str, not int"),
        (todrenval.dumps, [{8080: "port"}], "the key 8080 has to be a str, not int"),
        (todrenval.dumps, [{"": None}], "the value of '' has to be a str, not NoneType"),
        (todrenval.dumps, [[Comment(3)]], "a comment has to be a str, not int"),
        (todrenval.remove_key, [b"", None], "the key None has to be a str, not NoneType"),
        (todrenval.rename_key, [b"", "a", None], "the new key None has to be a str, not NoneType"),
        (todrenval.set_comment, [b"", "a", None], "a comment has to be a str or lines, not NoneType"),
        (todrenval.set_comment, [b"", "a", b"c"], "a comment has to be a str or lines, not bytes"),
        (todrenval.set_comment, [b"", "a", ["b", 3]], "a comment has to be a str, not int"),
        (todrenval.edit, [b"", {"port": 8080}], "the value of 'port' has to be a str, not int"),
        (todrenval.set_value, [b"", "port", 8080], "the value of 'port' has to be a str, not int"),
        (todrenval.set_key, [b"", "port", 8080], "the value of 'port' has to be a str, not int"),
        (todrenval.Document().__setitem__, ["port", 8080], "the value of 'port' has to be a str, not int"),
        (todrenval.dump, [{}, 5], "a path or a binary file, not int; dumps returns bytes"),
        (todrenval.dump, [{}, None], "a path or a binary file, not NoneType; dumps returns bytes"),
    ):
        error = raised(call, *more)
        count.check(type(error) is TypeError and str(error) == text, f"{call.__name__} of {more!r}: {error!r}")
    for wrong in (("a",), ("a", "b", "c"), ["a", "b"], "ab", SetKey("a", "b"), SetValue("a", "b"), RemoveKey("a")):
        count.check(isinstance(raised(todrenval.dumps, [wrong]), TypeError), f"dumps of {wrong!r}")
    for wrong in (("a",), ("a", "b", "c"), ["a", "b"], Pair("a", "b"), Comment("a"), ("a", 3)):
        count.check(isinstance(raised(todrenval.edit, b"", [wrong]), TypeError), f"edit of {wrong!r}")
    source = b"a : 1\nb = 2\nc 3\n"
    for edits in ({"a": "4", "b": None, "d": ""}, [("a", "4"), ("b", None), ("d", "")], [SetValue("a", "4"), RemoveKey("b"), ("d", "")]):
        count.check(todrenval.edit(source, edits) == b"a : 4\nc 3\nd \n", f"edit by {edits!r}")
    count.check(todrenval.dumps([("a", "b"), Pair("c", "d", 7), Comment("e")]) == b"a=b\nc=d\n# e\n", "dumps of lines")
    count.check(isinstance(raised(todrenval.dumps, {}, encoding="koi8-r"), LookupError), "dumps in koi8-r")
    document = todrenval.Document(b"a=1")
    key, value = r"The key '\ud83d'", "The value of 'a'"
    for call, more, named in (
        (todrenval.get, [b"", "\ud83d"], key), (todrenval.set_value, [b"", "a", "\ud83d"], value),
        (todrenval.set_key, [b"", "\ud83d", "a"], key), (todrenval.remove_key, [b"", "\ud83d"], key),
        (todrenval.edit, [b"", {"b": "c", "a": "\udc1e"}], value), (todrenval.dumps, [{"a": "\ud83d"}], value),
        (todrenval.set_comment, [b"a", "a", "\ud83d"], "A comment"), (document.set_comment, ["a", "\ud83d"], "A comment"),
        (todrenval.dumps, [[Comment("\ud83d")]], "A comment"), (document.__setitem__, ["a", "\ud83d"], value),
        (document.update, [{"a": "\ud83d"}], value),
    ):
        error = raised(call, *more)
        count.check(type(error) is PropertiesError and (error.status, error.line) == (Status.NOT_UTF_8, None), f"a surrogate: {error!r}")
        count.check(str(error) == f"{named} has a surrogate without its partner.", f"a surrogate: {error!r}")
    count.check(bytes(document) == b"a=1" and dict(document) == {"a": "1"}, "a document after an error")


NOT_TEXT = [
    (b"a=1\r\n\rb=\xff\n", "utf-8", 3, "utf-8"),
    (b"# \xe9", "utf-8", 1, "utf-8"),
    (b"\xef\xbb\xbfa\n\xc3", "cp1252", 2, "utf-8"),
    ("a\n".encode("utf-16-le") + b"\x3d\xd8", "utf-16-le", 2, "utf-16-le"),
    (b"\xfe\xff\0a\0\n\0", "utf-8", 2, "utf-16-be"),
]


def try_files(count):
    """Files, paths, and documents that are written whole or not at all."""
    with tempfile.TemporaryDirectory() as folder:
        path = pathlib.Path(folder) / "app.properties"
        todrenval.dump({"port": "80", "host": "a"}, path, separator=" = ", ending="\r\n")
        count.check(path.read_bytes() == b"port = 80\r\nhost = a\r\n", "dump to a path")
        mask = os.umask(0)
        os.umask(mask)
        count.check(path.stat().st_mode & 0o777 == 0o666 & ~mask, "the mode of a new file")
        with open(path, "rb") as file:
            count.check(todrenval.load(file) == {"port": "80", "host": "a"}, "load of a file")
        for each in (path, str(path)):
            count.check(todrenval.load(each) == {"port": "80", "host": "a"}, "load of a path")
        with open(path) as file:
            count.check(isinstance(raised(todrenval.load, file), TypeError), "load of a file of text")
        for wrong in (b"a=1", b"/a", 3, None):
            count.check(isinstance(raised(todrenval.load, wrong), TypeError), f"load of {wrong!r}")
            count.check(isinstance(raised(todrenval.open, wrong), TypeError), f"open of {wrong!r}")
        count.check(isinstance(raised(todrenval.load, path.with_name("none")), FileNotFoundError), "load of none")
        out = io.BytesIO()
        todrenval.dump([Comment("c"), ("k", "v")], out, prefix="#")
        count.check(out.getvalue() == b"#c\nk=v\n", "dump to a file")

        path.chmod(0o640)
        before = path.stat()
        with todrenval.open(path) as settings:
            count.check(settings["port"] == "80" and len(settings) == 2 and list(settings) == ["port", "host"], "what a document has")
        count.check(path.stat().st_ino == before.st_ino, "a file that nobody changed isn't written")
        with todrenval.open(path) as settings:
            settings["port"] = "8080"
            settings.update(drink="caf\u00e9")
            del settings["host"]
            count.check(raised(settings.__getitem__, "host").args == ("host",), "a key that was deleted")
            count.check(path.read_bytes() == b"port = 80\r\nhost = a\r\n", "nothing is written before the end")
        count.check(path.read_bytes() == b"port = 8080\r\ndrink = caf\\u00e9\r\n", f"a document: {path.read_bytes()!r}")
        after = path.stat()
        count.check(after.st_ino != before.st_ino and after.st_mode == before.st_mode, "a new file with the old mode")
        try:
            with todrenval.open(path) as settings:
                settings["port"] = "1"
                raise KeyError
        except KeyError:
            pass
        count.check(path.stat().st_ino == after.st_ino, "nothing is written after an error")
        settings = todrenval.open(path)
        count.check(type(raised(settings.__delitem__, "none")) is KeyError, "a key that isn't there")
        settings["port"] = "1"
        settings.save()
        settings.save()
        count.check(todrenval.load(path)["port"] == "1", "a document that is saved")
        link = path.with_name("link")
        link.symlink_to("app.properties")
        with todrenval.open(link) as settings:
            settings["port"] = "2"
        count.check(link.is_symlink() and todrenval.load(path)["port"] == "2", "a document behind a link")
        wide = "k=\u20ac\n".encode("utf-16-le")
        path.write_bytes(wide)
        settings = todrenval.open(path, encoding="utf-16-le")
        count.check(dict(settings) == {"k": "\u20ac"}, "a document in UTF-16")
        for error in (raised(settings.__setitem__, "k", "v"), raised(settings.__delitem__, "k")):
            count.check(type(error) is PropertiesError and error.status == Status.UNSUPPORTED, f"which can't be edited: {error!r}")
        count.check(type(raised(settings.__delitem__, "none")) is KeyError and settings.pop("none", "") == "", "a key that isn't there")
        settings.save()
        count.check(bytes(settings) == path.read_bytes() == wide and repr(wide) in repr(settings), "and stays as it is")
        real = todrenval.os.replace
        try:
            todrenval.os.replace = lambda *_: 1 / 0
            count.check(isinstance(raised(todrenval.dump, {}, path), ZeroDivisionError), "a rename that fails")
        finally:
            todrenval.os.replace = real
        count.check(path.read_bytes() == wide and sorted(os.listdir(folder)) == ["app.properties", "link"], "no other files are left")
    count.check(type(raised(todrenval.Document(b"").save)) is ValueError, "a document without a path")
    document = todrenval.Document(b"a=1\n")
    count.check(repr(document) == "Document(b'a=1\\n')" and document == {"a": "1"}, "a document prints itself")


def try_special_files(count):
    """What is no regular file is written to, and never replaced."""
    with tempfile.TemporaryDirectory() as folder:
        path = os.path.join(folder, "pipe")
        os.mkfifo(path)
        for each in (path, "/dev/null", folder):
            count.check(isinstance(raised(todrenval.open, each), OSError), f"open of {each}")
        document = todrenval.Document(b"a=1\n", path=path)
        document["a"] = "2"
        count.check(isinstance(raised(document.save), OSError), "a document at a pipe")
        reader = os.open(path, os.O_RDONLY | os.O_NONBLOCK)
        todrenval.dump({"a": "1"}, path)
        todrenval.dump({"b": "2"}, "/dev/null")
        count.check(os.read(reader, 100) == b"a=1\n", "dump to a pipe")
        os.close(reader)
        count.check(stat.S_ISFIFO(os.stat(path).st_mode) and stat.S_ISCHR(os.stat("/dev/null").st_mode), "they stay what they are")
        reader, writer = os.pipe()
        todrenval.dump({"a": "1"}, f"/dev/fd/{writer}")
        count.check(os.read(reader, 100) == b"a=1\n", "dump to a descriptor")
        os.close(reader)
        os.close(writer)
        count.check(os.listdir(folder) == ["pipe"], "no other files are left")


@contextlib.contextmanager
def failing(name, *names):
    """A call of `os` fails, and its error has these names of files."""
    def fail(*_, **__):
        raise OSError(errno.EPERM, "Operation not permitted", *names)

    real = getattr(os, name)
    setattr(os, name, fail)
    try:
        yield
    finally:
        setattr(os, name, real)


def try_file_errors(count):
    """A call of the system that fails names the file, whatever it was called with."""
    with tempfile.TemporaryDirectory() as folder:
        path = os.path.join(folder, "app.properties")
        todrenval.dump({"a": "1"}, path)
        settings = todrenval.open(path)
        settings["a"] = "2"
        for name, names in (
            ("fchmod", []), ("fsync", []), ("open", [folder]), ("replace", [path + ".new", None, path]), ("stat", [path]),
        ):
            for call, more in ((todrenval.dump, [{"a": "2"}, path]), (settings.save, [])):
                with failing(name, *names):
                    error = raised(call, *more)
                place = f"{call.__name__}, {name}: {error!r}"
                count.check(type(error) is PermissionError and (error.filename, error.filename2) == (path, None), place)
        count.check(todrenval.load(path) == {"a": "1"} and os.listdir(folder) == ["app.properties"], "the file stays")
        for wrong in (os.path.join(folder, "none", "a"), os.path.join(path, "a")):
            error = raised(todrenval.dump, {}, wrong)
            count.check(isinstance(error, OSError) and error.filename == wrong, f"dump to {wrong}: {error!r}")
        error = raised(todrenval.dump, {"a": "1"}, "/dev/full")
        count.check(isinstance(error, OSError) and error.filename == "/dev/full", f"dump to /dev/full: {error!r}")
        longest = os.path.join(folder, "\u20ac" * 85)
        todrenval.dump({"a": "1"}, longest)
        with todrenval.open(longest) as settings:
            settings["a"] = "2"
        count.check(todrenval.load(longest) == {"a": "2"}, "a name of 255 bytes")


def try_documents(count):
    """Documents in a folder that is left, that are copied, and whose file changes meanwhile."""
    here = os.getcwd()
    with tempfile.TemporaryDirectory() as folder:
        path = pathlib.Path(folder) / "app.properties"
        path.write_bytes(b"port = 80\n")
        try:
            os.chdir(folder)
            opened, made = todrenval.open("app.properties"), todrenval.Document(b"", path="new.properties")
        finally:
            os.chdir(here)
        opened["port"] = "81"
        made["a"] = "1"
        opened.save()
        made.save()
        count.check(path.read_bytes() == b"port = 81\n", "a relative path of open")
        count.check(path.with_name("new.properties").read_bytes() == b"a=1\n", "a relative path of a document")
        opened["port"] = "82"
        for other in (copy_of(opened), opened.copy()):
            other["host"] = "b"
            del other["port"]
            count.check(dict(opened) == {"port": "82"} and bytes(opened) == b"port = 82\n", "a document that was copied")
            count.check(dict(other) == {"host": "b"} and bytes(other) == b"host = b\n", "its copy")
        path.write_bytes(b"port = 1\n")
        error = raised(opened.save)
        count.check(type(error) is PropertiesError and error.status is None and error.line is None, repr(error))
        count.check(str(error) == f"{path}: The file has changed since it was read.", str(error))
        count.check(path.read_bytes() == b"port = 1\n" and len(os.listdir(folder)) == 2, "a file that changed stays")
        path.unlink()
        error = raised(opened.save)
        count.check(type(error) is FileNotFoundError and error.filename == str(path), f"a file that is gone: {error!r}")
        count.check(len(os.listdir(folder)) == 1, "a file that is gone stays so")
        opened.path = path.with_name("other.properties")
        opened.save()
        count.check(path.with_name("other.properties").read_bytes() == b"port = 82\n", "a document at another path")
        for call in (todrenval.load, todrenval.open):
            path.write_bytes(b"a=1\nb=\\u1\n")
            error = raised(call, path)
            count.check(str(error) == f"{path}:2: {error.reason}" and error.path == str(path), f"{call.__name__}: {error}")
            count.check(repr(error) == f"MalformedEscape({str(error)!r})", repr(error))
            count.check(str(pickle.loads(pickle.dumps(error))) == str(error), "an error with a path that is pickled")


def try_operators(count):
    """What a document has of a dict, and the lines of its keys."""
    source = b"# one\na : 1\n\nb : \\\n 2\nc 3\na : 4\n"
    document = todrenval.Document(source, path="/app.properties")
    count.check(list(reversed(document)) == ["c", "b", "a"], f"reversed: {list(reversed(document))}")
    count.check([document.line(key) for key in document] == [7, 4, 6], "lines")
    count.check(raised(document.line, "none").args == ("none",), "the line of a key that isn't there")
    document["b"] = "5"
    count.check([document.line(key) for key in document] == [6, 4, 5], "lines after an edit")
    del document["a"]
    document["d"] = "6"
    count.check([document.line(key) for key in document] == [3, 4, 5], "lines after other edits")
    count.check(raised(document.line, "a").args == ("a",), "the line of a key that was deleted")
    copied = document.copy()
    copied["c"] = "7"
    count.check((copied.line("c"), document.line("c")) == (4, 4), "lines of a copy")
    wide = todrenval.Document("\na=1\n# C:\\users\nb=2".encode("utf-16-le"), encoding="utf-16-le")
    count.check((wide.line("a"), wide.line("b")) == (2, 4), "lines in UTF-16")
    document = todrenval.Document(source, path="/app.properties")
    for other in ({"b": "5", "d": "6"}, todrenval.Document(b"b=5\nd=6"), types.MappingProxyType({"b": "5", "d": "6"})):
        made = document | other
        count.check(type(made) is todrenval.Document and made.path == document.path, f"a document | {other!r}")
        count.check(bytes(made) == b"# one\na : 1\n\nb : 5\nc 3\na : 4\nd : 6\n", f"a document | {other!r}: {made!r}")
    count.check(bytes(document) == source and dict(document) == {"a": "4", "b": "2", "c": "3"}, "and it stays as it is")
    for other in ({"b": "5", "d": "6"}, types.MappingProxyType({"b": "5", "d": "6"})):
        made = other | document
        count.check(type(made) is dict and list(made.items()) == [("b", "2"), ("d", "6"), ("a", "4"), ("c", "3")], f"{made!r}")
    same = document
    same |= {"b": "5"}
    same |= [("d", "6"), ("c", "7")]
    count.check(same is document and bytes(document) == b"# one\na : 1\n\nb : 5\nc 7\na : 4\nd : 6\n", f"|=: {document!r}")
    for wrong in (3, None, [("a", "1")], "ab"):
        count.check(type(raised(lambda: document | wrong)) is TypeError, f"a document | {wrong!r}")
        count.check(type(raised(lambda: wrong | document)) is TypeError, f"{wrong!r} | a document")
    error = raised(lambda: document | {"port": 80})
    count.check(type(error) is TypeError and str(error) == "the value of 'port' has to be a str, not int", repr(error))


def try_created(count):
    """A file that isn't there is made, if it is to be and has something in it."""
    with tempfile.TemporaryDirectory() as folder:
        path = pathlib.Path(folder) / "app.properties"
        for named in ({}, {"create": False}):
            error = raised(todrenval.open, path, **named)
            count.check(type(error) is FileNotFoundError and error.filename == str(path), f"open of none: {error!r}")
        with todrenval.open(path, create=True) as settings:
            count.check(len(settings) == 0 and bytes(settings) == b"", "a file that isn't there is empty")
            settings["a"] = "1"
            del settings["a"]
        count.check(not path.exists(), "it isn't made if nothing is in it")
        with todrenval.open(path, create=True) as settings:
            settings["a"] = "1"
        count.check(path.read_bytes() == b"a=1\n" and os.listdir(folder) == ["app.properties"], "it is made")
        with todrenval.open(path, create=True) as settings:
            settings["a"] = "2"
            settings.save()
            settings["a"] = "3"
        count.check(path.read_bytes() == b"a=3\n", "one that is there is opened")
        path.unlink()
        early, late = todrenval.open(path, create=True), todrenval.open(path, create=True)
        early["a"] = late["b"] = "1"
        late.save()
        error = raised(early.save)
        count.check(type(error) is PropertiesError and error.status is None and path.read_bytes() == b"b=1\n", f"made meanwhile: {error!r}")
        late["b"] = "2"
        path.unlink()
        count.check(type(raised(late.save)) is FileNotFoundError and not path.exists(), "one that was made and is gone")
        early.save()
        count.check(path.read_bytes() == b"a=1\n", "none is there again")
        link = path.with_name("link")
        link.symlink_to("made.properties")
        with todrenval.open(link, create=True) as settings:
            settings["a"] = "1"
        count.check(link.is_symlink() and path.with_name("made.properties").read_bytes() == b"a=1\n", "where a link leads")
        for wrong in (os.path.join(folder, "none", "a"), os.path.join(path, "a"), folder, "/dev/null"):
            error = raised(todrenval.open, wrong, create=True)
            count.check(isinstance(error, OSError) and error.filename == wrong, f"open of {wrong}: {error!r}")
        path.write_bytes(b"")
        before = path.stat().st_ino
        with todrenval.open(path, create=True):
            pass
        count.check(path.stat().st_ino == before, "an empty file that nobody changed isn't written")


def in_threads(*calls):
    """Makes each call in a thread of its own, and returns what they raised."""
    errors = []
    threads = [threading.Thread(target=lambda call=call: errors.append(raised(call))) for call in calls]
    for thread in threads:
        thread.start()
    for thread in threads:
        thread.join()
    return [error for error in errors if error is not None]


def try_shared_documents(count):
    """Threads share a document: its bytes have each edit that the mapping has, and so has the file."""
    document, late, real = todrenval.Document(b"a=1\n"), [], todrenval.edit

    def slow_edit(*arguments, **named):
        """Before the call is over, another thread sets a key, or waits."""
        edited = real(*arguments, **named)
        late.append(threading.Thread(target=document.__setitem__, args=("b", "2")))
        late[0].start()
        late[0].join(0.1)
        return edited

    document["a"] = "2"
    try:
        todrenval.edit = slow_edit
        bytes(document)
    finally:
        todrenval.edit = real
    late[0].join()
    came = todrenval.loads(bytes(document))
    count.check(came == dict(document) == {"a": "2", "b": "2"}, f"a key that is set while the bytes are made: {came}")

    with tempfile.TemporaryDirectory() as folder:
        path = os.path.join(folder, "app.properties")
        todrenval.dump({f"key.{number}": "some value" for number in range(2000)}, path)
        document = todrenval.open(path)
        keys = [f"key.{number}" for number in range(1990, 2010)]

        def change(seed):
            numbers = random.Random(seed)
            for _ in range(500):
                key = numbers.choice(keys)
                chosen = numbers.random()
                if chosen < 0.7:
                    document[key] = str(numbers.random())
                else:
                    with contextlib.suppress(KeyError, PropertiesError):
                        if chosen < 0.94:
                            del document[key]
                        elif chosen < 0.96:
                            document.rename(key, numbers.choice(keys))
                        elif chosen < 0.98:
                            document.set_comment(key, str(chosen))
                        else:
                            document.remove_with_comment(key)
                if numbers.random() < 0.02:
                    document.save()

        def look():
            for _ in range(50):
                copied = document.copy()
                if todrenval.loads(bytes(copied)) != dict(copied):
                    raise ValueError("a copy whose bytes have other values")

        interval = sys.getswitchinterval()
        try:
            sys.setswitchinterval(1e-6)
            errors = in_threads(*(lambda seed=seed: change(seed) for seed in range(4)), look, look)
        finally:
            sys.setswitchinterval(interval)
        count.check(errors == [], f"threads raised {errors!r}")
        document.save()
        count.check(todrenval.loads(bytes(document)) == dict(document), "the bytes after edits of several threads")
        count.check(todrenval.load(path) == dict(document) and os.listdir(folder) == ["app.properties"], "and the file")
    for other in (deepcopy(document), pickle.loads(pickle.dumps(document))):
        other["a"] = "1"
        count.check(bytes(other) == bytes(document) + b"a=1\n" and "a" not in document, "a document that is copied or pickled")


def try_zeros(count):
    """U+0000 in UTF-8 without a byte order mark is refused, unless what isn't text is replaced."""
    wide = "a=1\nb=2\n".encode("utf-16-le")
    calls = [
        (todrenval.loads, []), (todrenval.items, []), (todrenval.groups, []), (todrenval.findings, []), (todrenval.get, ["a"]),
        (todrenval.set_value, ["a", "3"]), (todrenval.edit, [{}]), (todrenval.convert, ["ascii"]), (todrenval.Document, []),
    ]
    for data, line in ((wide, 1), (b"a=1\r\nb=\0", 2), (b"\xff=1\na\0", 2), (b"a=1\n\0\n\xff", 2)):
        for call, more in calls:
            error = raised(call, data, *more)
            count.check(type(error) is PropertiesError and (error.status, error.line) == (Status.NOT_TEXT, line), f"{data!r}: {error!r}")
            count.check(error.reason == "U+0000. If this is UTF-16, give that as the encoding.", repr(error))
            count.check(raised(call, data, *more, errors="replace") is None, f"{data!r}, replaced")
    for data, named in ((b"\xef\xbb\xbfa=\0", {}), (b"a=\0", {"encoding": "cp1252"}), (b"a=\\u0000", {})):
        count.check(todrenval.loads(data, **named) == {"a": "\0"}, f"loads of {data!r}")


def try_types(count):
    """Each public name is there, and each call has hints and an example."""
    for name in todrenval.__all__:
        count.check(hasattr(todrenval, name), name)
        call = getattr(todrenval, name)
        if inspect.isfunction(call):
            signature = inspect.signature(call)
            count.check(signature.return_annotation is not signature.empty, f"{name} returns")
            for parameter in signature.parameters.values():
                count.check(parameter.annotation is not parameter.empty, f"{name}({parameter.name})")
            count.check(">>> " in call.__doc__, f"{name} has an example")
            # Older Pythons can't evaluate os.PathLike[str].
            count.check(sys.version_info < (3, 9) or typing.get_type_hints(call), f"the hints of {name}")
    count.check((pathlib.Path(todrenval.__file__).with_name("py.typed")).is_file(), "py.typed")


def try_errors(count):
    error = raised(todrenval.items, b"#c\na=1\n\nb=\\u12")
    count.check(isinstance(error, todrenval.MalformedEscape) and isinstance(error, ValueError), repr(error))
    count.check((error.line, error.status) == (4, Status.NOT_ENOUGH_DIGITS), repr(error))
    count.check(error.items == [Comment("c", 1), Pair("a", "1", 2)] and not error.in_comment, repr(error.items))
    count.check(str(error) == r"line 4: Malformed \uxxxx encoding: not enough digits.", str(error))
    other = pickle.loads(pickle.dumps(error))
    count.check((type(other), other.line, str(other)) == (type(error), error.line, str(error)), "an error that is pickled")
    count.check((other.status, other.items) == (error.status, error.items), "the items of an error that is pickled")
    count.check(repr(error) == rf"MalformedEscape({str(error)!r})", repr(error))
    error = raised(todrenval.items, b"a=1\n#C:\\users\nb=\\u12")
    count.check((error.line, error.in_comment) == (2, True) and pickle.loads(pickle.dumps(error)).in_comment, repr(error))
    for name, settings, status in (
        ("prefix", {"prefix": "x"}, Status.BAD_PREFIX), ("prefix", {"prefix": ""}, Status.BAD_PREFIX),
        ("separator", {"separator": "=="}, Status.BAD_SEPARATOR), ("separator", {"separator": ""}, Status.BAD_SEPARATOR),
        ("key", {"separator": " "}, Status.EMPTY_KEY),
    ):
        error = raised(todrenval.dumps, {"": "a"}, **settings)
        count.check(type(error) is PropertiesError and error.status == status and error.reason == todrenval._reason(status), repr(error))
    error = raised(todrenval.set_key, b"", "a", "b", encoding="utf-16")
    count.check(type(error) is PropertiesError and error.line is None and str(error) == "The call doesn't take this encoding.", repr(error))


def try_lists(count):
    """A list of items is no list of edits, nor the other way round."""
    item = todrenval._record(1, "a", "b")
    kinds = SetKey("a", "b"), SetValue("a", "b"), RemoveKey("a"), RenameKey("a", "b"), SetComment("a", "b"), RemoveWithComment("a")
    edits = [todrenval._edit_record(each) for each in kinds]
    calls = [("todrenval_write", [0, 0, b"", b""], packed) for packed in edits + [item + edits[0]]]
    calls += [("todrenval_edit", [b"a=1", 0, 0], packed) for packed in (item, edits[0] + item)]
    spanned = todrenval._result("todrenval_items", 100, b"a=1", 0, todrenval._SPANS)
    calls += [("todrenval_write", [0, 0, b"", b""], spanned), ("todrenval_edit", [b"a=1", 0, 0], spanned)]
    for name, more, packed in calls:
        arguments = [packed, *more] if name == "todrenval_write" else [*more, packed]
        count.check(todrenval._answer(name, 100, *arguments) == (Status.BAD_LIST, b"", None), f"{name} of {packed!r}")


class Newer:
    """A library that gives a status and a finding that the module doesn't know."""

    todrenval_status_text = staticmethod(todrenval._LIBRARY.todrenval_status_text)

    todrenval_get = staticmethod(todrenval._LIBRARY.todrenval_get)

    def __init__(self, status, bytes_given):
        self.status = status
        self.given = bytes_given

    def todrenval_items(self, source, source_length, encoding, flags, *out):
        return self.todrenval_findings(source, source_length, encoding, *out) if source else Status.OK

    def todrenval_findings(self, source, source_length, encoding, out, room, length, line):
        length._obj.value = len(self.given)
        line._obj.value = 3 if self.status else 0
        out[: len(self.given)] = self.given
        return self.status


def try_newer(count):
    library = todrenval._LIBRARY
    try:
        todrenval._LIBRARY = Newer(99, b"")
        error = raised(todrenval.findings, b"")
        count.check((type(error), str(error)) == (PropertiesError, "line 3: Unknown status."), repr(error))
        count.check(error.status == 99 and str(pickle.loads(pickle.dumps(error))) == str(error), repr(error))
        count.check(repr(error.status) == "<Status.UNKNOWN_99: 99>", repr(error.status))
        todrenval._LIBRARY = Newer(0, struct.pack("<4Q", 4, 3, 1, 1) + b"a")
        found = todrenval.findings(b"")
        count.check(found == [(3, 4, None, None, False, None)] and found[0].reason == "Unknown kind of finding.", repr(found))
        count.check(isinstance(found[0].kind, todrenval.FindingKind), repr(found))
        todrenval._LIBRARY = Newer(0, struct.pack("<16Q", 17, 1, 1, 1, 0, 0, 1, 2, 3, 3, 3, 99, 2, 1, 3, 0) + b"ab")
        found = todrenval.groups(b"a" * 99)
        count.check(found == [(Pair("a", "b", 1), 1, (0, 0, 1, 2, 3, 3, 3), (99, 2, 1, 3), None)], repr(found))
        count.check(found[0].flaw.reason == "Unknown status.", repr(found))
    finally:
        todrenval._LIBRARY = library


def try_room(count):
    """No source needs more room for its items than docs/C.md says. It is most if each other byte is a line ending, or, with
    spans, each byte."""
    for flags, wanted, each in (
        (todrenval._READ_COMMENTS, {size: 35 * ((size + 1) // 2) + (size % 2 == 0 and size > 0) * 3 for size in range(6)}, 18),
        (todrenval._SPANS, {size: 128 * size + (size > 0) * 3 for size in range(6)}, 128),
    ):
        most = {}
        for encoding in ("cp1252", "utf-8", "utf-16-le", "utf-16-be"):
            number = todrenval._number(encoding)
            for size in range(6):
                for pieces in itertools.product((b"a", b"=", b"#", b"\\", b" ", b"\n", b"\r", b"\0", b"\x80", b"\xff"), repeat=size):
                    source = b"".join(pieces)
                    length, line = ctypes.c_size_t(), ctypes.c_size_t()
                    arguments = (source, size, number, flags, b"", 0, ctypes.byref(length), ctypes.byref(line))
                    todrenval._LIBRARY.todrenval_items(*arguments)
                    most[size] = max(most.get(size, 0), length.value)
        count.check(most == wanted, f"room with the flags {flags}: {most}")
        count.check(all(most[size] <= each * size + each for size in most), f"room with the flags {flags}: {most}")


def try_findings(count):
    source = b"a=1\na=2\nb=\\u1\n#\\uxxxx\na=\\udc1e\nb=3\na : 4"
    found = [(finding.line, finding.key, finding.reason) for finding in todrenval.findings(source)]
    malformed = "Malformed \\uxxxx encoding: "
    wanted = [
        (2, "a", "repeats the key of line 1"),
        (3, None, malformed + "not enough digits."),
        (4, None, malformed + "not hex. (in a comment)"),
        (5, None, malformed + "invalid character."),
        (7, "a", "repeats the key of line 1"),
    ]
    count.check(found == wanted, f"findings: {found}")
    in_comments = [finding.line for finding in todrenval.findings(source) if finding.in_comment]
    count.check(in_comments == [4], f"findings in comments: {in_comments}")
    count.check(todrenval.findings(b"") == [], "findings of nothing")
    # The column of a key, of an escape, and none of an escape in a later line or in UTF-16.
    source = "\ufeff a\\u1\n\ta=1\n # \\u12\n\u20ac a=\\u12\n \\u0061:2\nb=\\\n\\u12\n"
    for encoding, wanted in (("utf-8", [3, 4, 7, 2, None]), ("utf-16-le", [None] * 5)):
        found = todrenval.findings(source.encode(encoding), encoding=encoding)
        count.check([each.line for each in found] == [1, 3, 4, 5, 6], f"lines of findings: {found}")
        count.check([each.column for each in found] == wanted, f"columns of findings: {found}")
    mixed = b"\xe4=1\n\xf6=2\n"
    found = [(finding.line, finding.key, finding.first) for finding in todrenval.findings(mixed, errors="replace")]
    count.check(found == [(2, "\ufffd", 1)], f"findings in what isn't UTF-8: {found}")
    count.check(todrenval.findings(mixed, encoding="iso-8859-1") == [], "findings in iso-8859-1")
    many = b"".join(b"%d=1\n" % (number % 100) for number in range(2000))
    count.check(len(todrenval.findings(many)) == 1900, "many findings")


MATCHES = r"""
match todrenval.findings(b"a=1\n a=2\nb=\\u12"):
    case [Finding(2, FindingKind.REPEATED_KEY, "a", first=1, column=2), Finding(3, FindingKind.NOT_ENOUGH_DIGITS, column=3)]:
        came.append("findings")
match todrenval.groups(b"# c\na=\\u12"):
    case [Group(Comment("c", 1), 1), Group(Pair("a", value), 2, Spans(4, 4), Flaw(Status.NOT_ENOUGH_DIGITS, 6, 2, 3))]:
        came.append(value)
for call in (lambda: todrenval.items(b"a=1\nb=\\u12"), lambda: todrenval.rename_key(b"a=1\nb=2", "a", "b")):
    try:
        call()
    except PropertiesError as error:
        match error:
            case MalformedEscape(Status.NOT_ENOUGH_DIGITS, 2) | PropertiesError(Status.KEY_TAKEN, 2):
                came.append(error.line)
"""


def try_types_of_results(count):
    """What calls return has only members of enums in the place of numbers, and can be taken apart by `match`."""
    for of, name, wanted in ((todrenval.Finding, "kind", todrenval.FindingKind), (todrenval.Flaw, "status", Status)):
        count.check(typing.get_type_hints(of)[name] is wanted, f"the type of {name}")
    if sys.version_info >= (3, 10):
        came = []
        exec(MATCHES, {**vars(todrenval), "todrenval": todrenval, "came": came})
        count.check(came == ["findings", "\\u12", 2, 2], f"what is taken apart: {came}")


def try_comments(count):
    """Comments are passed over, or read, by each call that doesn't read all."""
    source = b"# C:\\users\nport = 80\nhost = a\n"
    edits = [SetValue("port", "81"), RemoveKey("host")]
    calls = [
        (todrenval.get, ["port"], "80"),
        (todrenval.set_value, ["port", "81"], b"# C:\\users\nport = 81\nhost = a\n"),
        (todrenval.set_key, ["port", "81"], b"# C:\\users\nport=81\nhost = a\n"),
        (todrenval.remove_key, ["host"], b"# C:\\users\nport = 80\n"),
        (todrenval.remove_with_comment, ["host"], b"# C:\\users\nport = 80\n"),
        (todrenval.remove_with_comment, ["port"], b"host = a\n"),
        (todrenval.rename_key, ["port", "user"], b"# C:\\users\nuser = 80\nhost = a\n"),
        (todrenval.set_comment, ["port", "web"], b"# web\nport = 80\nhost = a\n"),
        (todrenval.set_comment, ["host", "\\u12"], b"# C:\\users\nport = 80\n# \\u12\nhost = a\n"),
        (todrenval.edit, [[SetComment("port", "web"), *edits, RenameKey("port", "user")]], b"# web\nuser = 81\n"),
        (todrenval.edit, [edits], b"# C:\\users\nport = 81\n"),
        (todrenval.edit, [edits[:1]], b"# C:\\users\nport = 81\nhost = a\n"),
        (todrenval.edit, [[]], source),
        (todrenval.loads, [], {"port": "80", "host": "a"}),
    ]
    for call, more, wanted in calls:
        for encoding in ("iso-8859-1", "utf-8", "utf-8-sig"):
            for named in ({}, {"comments": "skip"}):
                came = call(source, *more, encoding=encoding, **named)
                count.check(came == wanted, f"{call.__name__}, past comments: {came}")
            error = raised(call, source, *more, encoding=encoding, comments="read")
            count.check(error and came_error(error) == ("error", "NotHex", 1) and error.in_comment, f"{call.__name__}, comments read: {error!r}")
        for wrong in ("Skip", "", None, True, 4):
            error = raised(call, source, *more, comments=wrong)
            count.check(type(error) is ValueError, f"{call.__name__}, comments {wrong!r}: {error!r}")
        error = raised(call, source + b"\\u12", *more)
        count.check(error and came_error(error) == ("error", "NotEnoughDigits", 4), f"{call.__name__} of a pair: {error!r}")
    error = raised(todrenval.items, source)
    count.check(error and came_error(error) == ("error", "NotHex", 1), f"items: {error!r}")
    pairs = [Pair("port", "80", 2), Pair("host", "a", 3)]
    for encoding in ("cp1252", "utf-8", "utf-8-sig", "utf-16-le", "utf-16-be", "utf-16"):
        data = source.decode().encode(encoding)
        count.check(todrenval.items(data, encoding=encoding, comments="skip") == pairs, f"items past comments in {encoding}")
        found = todrenval.items(data, encoding=encoding, comments="raw")
        count.check(found == [Comment("C:\\users", 1), *pairs], f"items with raw comments in {encoding}: {found}")
    found = todrenval.items(b"!\\u0041\\\na=\\u0041", comments="raw")
    count.check(found == [Comment("\\u0041\\", 1), Pair("a", "A", 2)], f"a comment as it stands: {found}")
    for comments in ("skip", "raw"):
        error = raised(todrenval.items, source + b"a=\\u12", comments=comments)
        count.check(error and came_error(error) == ("error", "NotEnoughDigits", 4) and not error.in_comment, f"items: {error!r}")
        count.check(error and [item for item in error.items if isinstance(item, Pair)] == pairs, f"items before it: {error.items}")
    for call, words in ((todrenval.items, "Raw all"), (todrenval.groups, "skip Raw")):
        for wrong in (*words.split(), "", None, True, 4):
            error = raised(call, source, comments=wrong)
            count.check(type(error) is ValueError, f"{call.__name__}, comments {wrong!r}: {error!r}")
    for text in (
        "# C:\\users\nport = 80\n", "\r\nport = \\\r\n  80\r\r#\\u\n\r\n!\\uxxxx", "#\\u12\\\nport:80",
        "\\\n#\\u\nport=80", "\\\r\n \\\r!\\ud83d\\\\\\\nport=1\r\nport=80\n\\\n#\\u",
    ):
        for encoding in ("utf-8", "utf-8-sig", "cp1252", "utf-16-le", "utf-16-be", "utf-16"):
            data = text.encode(encoding)
            count.check(todrenval.loads(data, encoding=encoding) == {"port": "80"}, f"loads of {data!r}")
            error = raised(todrenval.loads, data, encoding=encoding, comments="read")
            count.check(type(error) is todrenval.MalformedEscape and error.in_comment, f"loads of {data!r}, comments read: {error!r}")
            error = raised(todrenval.loads, data + "\na=\\u12".encode(encoding.replace("16", "16-le") if encoding == "utf-16" else encoding.replace("-sig", "")), encoding=encoding)
            count.check(type(error) is todrenval.MalformedEscape and not error.in_comment, f"loads of {data!r} and a pair: {error!r}")
    for name in ("C\xe9=1\n# C:\\users\n", "# C:\\users\nC\xe9=1\n"):
        count.check(todrenval.loads(name.encode("cp1252"), encoding="cp1252") == {"C\xe9": "1"}, f"loads of {name!r}")
        count.check(dict(todrenval.Document(name.encode())) == {"C\xe9": "1"}, f"a document of {name!r}")
    count.check(todrenval.get("#\\u12\nk=v".encode("utf-16-le"), "k", encoding="utf-16-le") == "v", "get in UTF-16")


def try_keys(count):
    """A key is renamed where it stands, removed with its comment, or its comment is told."""
    source = b"# of C:\\users\n#\n  port\t= 8\\\n  0\n\n! host\n\\u0070ort"
    renamed = todrenval.rename_key(source, "port", "caf\xe9")
    count.check(renamed == source.replace(b"port\t", b"caf\\u00e9\t").replace(b"\\u0070ort", b"caf\\u00e9"), f"renamed: {renamed}")
    renamed = todrenval.rename_key(source, "port", "caf\xe9", ascii_only=False)
    count.check(renamed.count("caf\xe9".encode()) == 2, f"renamed: {renamed}")
    renamed = todrenval.rename_key(b"a=\x80", "a", "\xe9\u20ac", encoding="iso-8859-1", ascii_only=False)
    count.check(renamed == b"\xe9\\u20ac=\x80", f"renamed in iso-8859-1: {renamed}")
    count.check(todrenval.rename_key(source, "port", "port") == source, "renamed to what it is")
    count.check(todrenval.rename_key(b"a 1", "a", "") == b"= 1", "renamed to nothing")
    removed = todrenval.remove_with_comment(source, "port")
    count.check(removed == b"\n", f"removed: {removed}")
    count.check(todrenval.remove_with_comment(source, "host") == source, "nothing to remove")
    count.check(todrenval.comment(source, "port") == ["host"], "the comment of the last pair")
    count.check(todrenval.comment(source[:40], "port") == ["of C:\\users", ""], "a comment of two lines")
    count.check(todrenval.comment(b"a", "a") == [] and todrenval.comment(b"#\na", "a") == [""], "no comment, and an empty one")
    count.check(todrenval.comment(b"#\t\x85\xa0\na", "a", encoding="cp1252") == ["\u2026\xa0"], "a comment of other characters")
    long = [str(number) for number in range(5000)]
    count.check(todrenval.comment("".join(f"# {line}\n" for line in long).encode() + b"a", "a") == long, "a long comment")
    came = todrenval.set_comment(source, "port", "caf\xe9\r\r\n \\u12")
    count.check(came == source.replace(b"! host\n", b"! caf\\u00e9\n!\n!  \\u12\n"), f"a comment that is set: {came}")
    came = todrenval.set_comment(source[:40], "port", "caf\xe9", ascii_only=False)
    count.check(came == "# caf\xe9\n".encode() + source[16:40], f"a comment that is set: {came}")
    came = todrenval.set_comment(b"\ta=\x80\r", "a", "\xe9\u20ac", encoding="iso-8859-1", ascii_only=False)
    count.check(came == b"\t# \xe9\\u20ac\r\ta=\x80\r", f"a comment that is set in iso-8859-1: {came}")
    for text, wanted in (("host", source), ("host\n", source), ("", source.replace(b"! host\n", b""))):
        count.check(todrenval.set_comment(source, "port", text) == wanted, f"a comment that is set to {text!r}")
    for lines in ([], [""], ["host"], ["", "a", ""], ["C:\\u", "  \xe9"], ("a", "b\nc"), todrenval.comment(source, "port")):
        wanted = todrenval.set_comment(source, "port", "".join(f"{line}\n" for line in lines))
        document = todrenval.Document(source)
        document.set_comment("port", lines)
        for came in (todrenval.set_comment(source, "port", lines), todrenval.edit(source, [SetComment("port", lines)]), bytes(document)):
            count.check(came == wanted, f"a comment that is set to {lines!r}: {came}")
    count.check(todrenval.set_comment(source, "port", iter(["a"])) == todrenval.set_comment(source, "port", "a"), "an iterator of lines")
    long_text = "".join(f"{line}\n" for line in long)
    made = todrenval.set_comment(b"a", "a", long_text)
    count.check(todrenval.comment(made, "a") == long and made.endswith(b"# 4999\na"), "a long comment that is set")
    for call, more in ((todrenval.rename_key, ["a", "b"]), (todrenval.comment, ["a"]), (todrenval.set_comment, ["a", "b"])):
        error = raised(call, b"c=1\n# a", *more)
        count.check(type(error) is KeyError and error.args == ("a",), f"{call.__name__} of none: {error!r}")
        for data, status, line in ((b"\n\\u12", Status.NOT_ENOUGH_DIGITS, 2), (b"\xff\xfe", Status.UNSUPPORTED, None), (b"a=\xff", Status.NOT_TEXT, 1)):
            error = raised(call, data, *more)
            count.check((error.status, error.line) == (status, line), f"{call.__name__} of {data!r}: {error!r}")
        count.check(isinstance(raised(call, b"a", "\ud83d", *more[1:]), PropertiesError), f"{call.__name__} of a surrogate")
        for wrong in ("a=1", 3, None):
            count.check(isinstance(raised(call, wrong, *more), TypeError), f"{call.__name__} of {wrong!r}")
    error = raised(todrenval.rename_key, b"\na=1\nc\\\n\nb=2\nb=3", "a", "b")
    count.check(type(error) is PropertiesError and (error.status, error.line) == (Status.KEY_TAKEN, 5), f"a key that is taken: {error!r}")
    count.check(error.reason == "A pair has the new key 'b' already.", f"a key that is taken: {error!r}")
    error = raised(todrenval.rename_key, b"", "a", "\ud83d")
    count.check(str(error) == r"The new key '\ud83d' has a surrogate without its partner.", f"a surrogate: {error!r}")


def by_calls(source, edits, named):
    """The source after these edits, by a call for each. Of the comments that are set together, each call sets the last one for
    its key, and none of them reads what those before it set."""
    reading = {name: named[name] for name in named if name != "ascii_only"}
    for kind, run in itertools.groupby(edits, type):
        run = list(run)
        if kind is SetComment:
            # Keys that aren't there.
            for each in run:
                todrenval.set_comment(source, *each, **named)
            for key, text in dict(run).items():
                source = todrenval.set_comment(source, key, text, **{**named, "comments": "skip"})
            continue
        for each in run:
            if kind is RenameKey:
                source = todrenval.rename_key(source, *each, **named)
            elif kind is RemoveWithComment:
                source = todrenval.remove_with_comment(source, *each, **reading)
            else:
                source = todrenval.edit(source, [each], **named)
    return source


def on_document(document, each):
    """Makes an edit in a document, in which a key that isn't there can't be removed."""
    if isinstance(each, RenameKey):
        document.rename(*each)
    elif isinstance(each, SetComment):
        document.set_comment(*each)
    elif isinstance(each, RemoveWithComment):
        with contextlib.suppress(KeyError):
            document.remove_with_comment(*each)
    elif isinstance(each, SetValue):
        document[each.key] = each.value
    else:
        document.pop(each.key, None)


def try_lists_of_edits(count):
    """Lists of edits of every kind give what the calls give one after another, and so does a document, or the same error."""
    numbers = random.Random(6)
    lines = [b"a = 1\n", b"b : 2\\\n 3\r\n", b"# c\n", b" ! C:\\users\r", b"\n", b"\\u0061 4\n", b"#\xe9\n", b"c\xff 5\n", b"#\n"]
    texts = ["", "\n", "one", " two\n\nthree", "caf\xe9", "\\u0062", "C:\\u"]
    kinds = [
        lambda: RenameKey(numbers.choice("abc\xe9"), numbers.choice(["a", "b", "d", "\u20ac"])),
        lambda: RemoveWithComment(numbers.choice("abd")),
        lambda: SetComment(numbers.choice("abd"), numbers.choice(texts)),
        lambda: SetValue(numbers.choice("abd"), numbers.choice(texts)),
        lambda: RemoveKey(numbers.choice("abd")),
    ]
    outcomes = {}
    for _ in range(6000):
        source = b"".join(numbers.choices(lines, k=numbers.randrange(8)))
        edits = [numbers.choice(kinds)() for _ in range(numbers.randrange(6))]
        named = {"encoding": numbers.choice(["utf-8", "cp1252", "iso-8859-1"]), "errors": numbers.choice(["strict", "replace"])}
        named.update(comments=numbers.choice(["skip", "skip", "read"]), ascii_only=numbers.random() < 0.5)
        place = f"{edits!r} of {source!r} by {named!r}"
        try:
            wanted = by_calls(source, edits, named) if edits else todrenval.edit(source, {}, **named)
        except (KeyError, PropertiesError) as error:
            wanted = (type(error), str(error))
            error = raised(todrenval.edit, source, edits, **named)
            count.check((type(error), str(error)) == wanted, f"{place}: {error!r}")
            outcomes[wanted[0]] = outcomes.get(wanted[0], 0) + 1
        else:
            came = todrenval.edit(source, iter(edits), **named)
            count.check(came == wanted, f"{place}: {came}")
            outcomes[bytes] = outcomes.get(bytes, 0) + 1
        try_document(count, source, edits, named)
    count.check(len(outcomes) == 4 and min(outcomes.values()) > 100, f"outcomes: {outcomes}")
    error = raised(todrenval.edit, b"a=1\nb=2", [("c", "3"), RenameKey("a", "d"), RenameKey("b", "c")])
    count.check(str(error) == "line 3: A pair has the new key 'c' already.", f"a list with a key that is taken: {error!r}")
    error = raised(todrenval.edit, b"a=1\na=2", [SetComment("a", "C:\\u"), ("b", "1")], comments="read")
    count.check((came_error(error), error.in_comment) == (("error", "NotEnoughDigits", 2), True), f"an escape that is set: {error!r}")
    error = raised(todrenval.edit, b"a=1", [*[("a", "2")] * 100, SetComment("b", "c"), SetComment("d", "e")])
    count.check(type(error) is KeyError and error.args == ("b",), f"a list with a comment of none: {error!r}")
    for wrong in (RenameKey("a", 3), SetComment("a", None), RemoveWithComment(3), RenameKey(None, "a")):
        count.check(type(raised(todrenval.edit, b"a", [wrong])) is TypeError, f"edit by {wrong!r}")


def try_document(count, source, edits, named):
    """After each edit a document is what its bytes are; and if the edit raises an error, it is as it was."""
    try:
        document = todrenval.Document(source, **named)
    except PropertiesError:
        return
    reading = {name: named[name] for name in named if name != "ascii_only"}
    told = {"encoding": named["encoding"], "errors": named["errors"]}
    for each in edits:
        before = bytes(document)
        error = raised(on_document, document, each)
        if error:
            wanted, came = before, raised(by_calls, before, [each], named)
            if came is None:
                # A text whose escape is malformed, in a document that reads comments.
                came = raised(todrenval.loads, by_calls(before, [each], named), **reading)
            count.check((type(error), str(error)) == (type(came), str(came)), f"{each!r} in {before!r}: {error!r}")
        else:
            wanted = by_calls(before, [each], named)
        came = bytes(document)
        count.check(came == wanted, f"{each!r} in {before!r}: {came}")
        count.check(list(document.items()) == list(todrenval.loads(came, **reading).items()), f"{each!r} in {before!r}: {dict(document)}")
        for key in document:
            count.check(document.comment(key) == todrenval.comment(came, key, **told), f"the comment of {key!r} in {came!r}")
            count.check(came.splitlines(True)[document.line(key) - 1 :] != [], f"the line of {key!r} in {came!r}")
    count.check(type(raised(document.remove_with_comment, "none")) is KeyError, "a key that isn't there")


def try_groups(count):
    """Groups are the file; their texts are resolved, or stand as they are; and a malformed escape is none of an error."""
    source = b" # C:\\users \r\n\tport\\u0020 = \\\n  8\\u0030\n\n\\u12 x"
    comment, pair, blank, bad = todrenval.groups(source)
    parts = [source[start:end] for start, end in zip(comment.spans, comment.spans[1:])]
    count.check(parts == [b" ", b"#", b" ", b"C:\\users", b" ", b"\r\n"], f"a comment: {parts}")
    parts = [source[start:end] for start, end in zip(pair.spans, pair.spans[1:])]
    count.check(parts == [b"\t", b"port\\u0020", b" = ", b"\\\n  8\\u0030", b"", b"\n"], f"a pair: {parts}")
    count.check(comment.item == Comment("C:\\users", 1) and pair.item == Pair("port ", "80", 2), f"{comment} {pair}")
    count.check((blank.item, blank.line, blank.flaw) == (None, 4, None), f"a blank line: {blank}")
    count.check(bad.item == Pair("\\u12", "x", 5) and bad.line == 5, f"a malformed pair: {bad}")
    count.check(comment.flaw == (Status.NOT_HEX, 5, 1, 6) and bad.flaw == (Status.NOT_ENOUGH_DIGITS, bad.spans.key_start, 5, 1), "flaws")
    count.check(bad.flaw.reason == todrenval._reason(Status.NOT_ENOUGH_DIGITS) and pair.flaw is None, "why")
    resolved = todrenval.groups(b"# \\u0041\n# C:\\users", comments="read")
    count.check([group.item.text for group in resolved] == ["A", "C:\\users"], f"comments that are read: {resolved}")
    count.check([group.flaw for group in resolved] == [None, (Status.NOT_HEX, 13, 2, 5)], f"comments that are read: {resolved}")
    raw = todrenval.groups(source, raw=True)[1].item
    count.check(raw == Pair("port\\u0020", "8\\u0030", 2), f"a pair as it stands: {raw}")
    mixed = todrenval.groups(b"a=\xff\nb=\\\n\0\n\xe9", errors="replace")
    count.check([group.ill_formed_line for group in mixed] == [1, None, 4], f"what isn't text: {mixed}")
    count.check(todrenval.groups(b"\xff", encoding="cp1252")[0].ill_formed_line is None, "in cp1252 each byte is text")
    count.check(todrenval.groups(b"") == todrenval.groups(b"\xef\xbb\xbf") == [], "groups of nothing")
    count.check(todrenval.groups(b"\xef\xbb\xbfa=1")[0].spans.start == 3, "a byte order mark is no group")
    for data, encoding in (("a=1".encode("utf-16-le"), "utf-16-le"), (b"\xfe\xff\0a", "utf-8")):
        error = raised(todrenval.groups, data, encoding=encoding)
        place = f"groups of {data!r}: {error!r}"
        count.check(type(error) is PropertiesError and error.status == Status.UNSUPPORTED, place)
        count.check(str(error) == "The call doesn't take this encoding.", place)


LONGEST = int(sys.argv[1]) if len(sys.argv) > 1 else 6


def try_short_files(count):
    """Every short file with a comment sign and the front of an escape: what `loads` gives or raises is what `get` does."""
    keys = ("", "a", "u", "#", "=")
    for size in range(LONGEST + 1):
        for source in map(bytes, itertools.product(b"\\\n#ua= ", repeat=size)):
            if b"\\u" in source and b"#" in source:
                gotten = [got(source, key, "utf-8") for key in keys]
                count.check([loaded(todrenval.loads, source, key, "utf-8") for key in keys] == gotten, f"loads of {source!r}")


def try_round_trips(count):
    pairs = [("", ""), (" a\t", "\\ \n\r\f"), ("#\0", "\U0001f41e\ufeff"), ("\u20ac" * 3000, "é" * 70000)]
    for encoding in ("iso-8859-1", "utf-8", "utf-16-le", "utf-16-be"):
        for ascii_only, readable in itertools.product((False, True), repeat=2):
            named = {"encoding": encoding, "ascii_only": ascii_only, "readable": readable}
            data = todrenval.dumps(pairs, **named)
            written = written_in(encoding)
            count.check(todrenval.loads(data, encoding=written) == dict(pairs), f"a round trip in {encoding}")
            count.check(todrenval.dumps(todrenval.items(data, encoding=written), **named) == data, encoding)
            count.check(not ascii_only or data.isascii(), "ASCII only")
    blanks = b"a\n" * 5000
    count.check(len(todrenval.items(blanks)) == 5000, "items of short lines")


def try_threads(count):
    source = b"".join(b"key.%d = some value\n" % number for number in range(20000))
    wanted = todrenval.items(source)
    came = []

    def work(number):
        for _ in range(5):
            edited = todrenval.set_value(source, f"key.{number}", "x")
            came.append(todrenval.items(source) == wanted and todrenval.get(edited, f"key.{number}") == "x")

    threads = [threading.Thread(target=work, args=(number,)) for number in range(8)]
    for thread in threads:
        thread.start()
    for thread in threads:
        thread.join()
    count.check(came == [True] * 40, "calls in several threads")


def try_random(count):
    """Calls on short random sources agree with one another."""
    numbers = random.Random(1)
    alphabet = [b"a", b"b", b"k", b"=", b":", b" ", b"\t", b"\n", b"\r", b"\\", b"#", b"!", b"\xe9", b"\xc3\xa9", b"\xff", b"\\u0061"]
    values = ["", "v", " =", "é", "\u20ac\n", "\U0001f41e\\", "a" * 60]
    for _ in range(4000):
        source = b"".join(numbers.choices(alphabet, k=numbers.randrange(25)))
        if numbers.randrange(8) == 0:
            source += b"\\u00"
        encoding = numbers.choice(["iso-8859-1", "utf-8"])
        key, value, ascii_only = numbers.choice("abk"), numbers.choice(values), numbers.random() < 0.5
        reading = {"encoding": encoding, "errors": "replace"}
        named = {**reading, "ascii_only": ascii_only}
        place = f"{source!r} in {encoding}, {key!r}, {value!r}, {ascii_only}"
        escapes = [found for found in todrenval.findings(source, **reading) if found.key is None]
        in_pairs = [found for found in escapes if not found.in_comment]
        for call, more in ((todrenval.get, [key]), (todrenval.set_value, [key, value]), (todrenval.remove_key, [key])):
            other = raised(call, source, *more, **reading)
            came = other and (other.line, other.status.name)
            wanted = (in_pairs[0].line, in_pairs[0].kind.name) if in_pairs else None
            count.check(came == wanted, f"{call.__name__} past comments of {place}")
        error = raised(todrenval.loads, source, **reading)
        wanted = in_pairs and came_error(raised(todrenval.get, source, key, **reading))
        count.check((came_error(error) if error else []) == wanted, f"loads of {place}")
        error = raised(todrenval.items, source, **reading)
        count.check((error is None) == (not escapes), f"findings of {place}")
        if error is not None:
            count.check(error.line == escapes[0].line and error.status.name == escapes[0].kind.name, f"the line in {place}")
            count.check(error.in_comment == escapes[0].in_comment, f"whether it is in a comment in {place}")
            for call, more in ((todrenval.get, [key]), (todrenval.set_value, [key, value]), (todrenval.remove_key, [key])):
                other = raised(call, source, *more, comments="read", **reading)
                count.check(other is not None and came_error(other) == came_error(error), f"{call.__name__} of {place}")
            continue
        items = todrenval.items(source, **reading)
        pairs = [item[:2] for item in items if isinstance(item, Pair)]
        loaded = todrenval.loads(source, **reading)
        count.check(loaded == dict(pairs) and list(loaded) == list(dict.fromkeys(key for key, _ in pairs)), f"loads of {place}")
        count.check(all(todrenval.get(source, key, **reading) == loaded[key] for key in loaded), f"get of {place}")
        others = [pair for pair in pairs if pair[0] != key]
        for call, kind in ((todrenval.set_value, SetValue), (todrenval.set_key, SetKey)):
            edited = call(source, key, value, **named)
            count.check(edited == todrenval.edit(source, [kind(key, value)], **named), f"{call.__name__} of {place}")
            count.check(edited == call(source, key, value, comments="read", **named), f"{call.__name__} of {place}")
            count.check(todrenval.get(edited, key, **reading) == value, f"{call.__name__} of {place}")
            left = [item[:2] for item in todrenval.items(edited, **reading) if isinstance(item, Pair) and item.key != key]
            count.check(left == others, f"{call.__name__} of {place}")
        edited = todrenval.remove_key(source, key, **reading)
        left = [item[:2] for item in todrenval.items(edited, **reading) if isinstance(item, Pair)]
        count.check(left == others, f"remove_key of {place}")
        written = todrenval.dumps(items, encoding=encoding, ascii_only=ascii_only)
        read = [as_read_back(item) for item in todrenval.items(written, **reading)]
        count.check(read == [as_read_back(item) for item in items], f"dumps of {place}")


CONVERSIONS = [(to, readable) for to in ("ascii", "cp1252", "iso-8859-1", "utf-8") for readable in (False, True)]


def try_conversion(count, source, encoding, to, readable):
    """A converted source reads the same and has the same line endings, and converting it again changes nothing. It isn't
    longer than the header says."""
    place = f"{source!r} from {encoding} to {to}, {readable}"
    came = todrenval.convert(source, to, encoding=encoding, errors="replace", readable=readable)
    reading = "iso-8859-1" if to == "ascii" else to
    replaced = {"encoding": reading, "errors": "replace"}
    count.check(all_of(came, reading) == all_of(source, encoding), f"what is in {place}")
    count.check(len(came) <= 6 * len(source), f"the length of {place}")
    count.check(to != "ascii" or came.isascii(), f"ASCII in {place}")
    count.check(to != "iso-8859-1" or not OTHERWISE.search(came), f"ISO 8859-1 in {place}")
    count.check(todrenval.convert(came, to, readable=readable, **replaced) == came, f"twice {place}")
    direct = todrenval.convert(source, "utf-8", encoding=encoding, errors="replace", readable=True)
    count.check(todrenval.convert(came, "utf-8", readable=True, **replaced) == direct, f"readable after {place}")
    if not encoding.startswith("utf-16") and source[:2] not in (b"\xfe\xff", b"\xff\xfe"):
        endings = re.compile(rb"\r\n|\r|\n")
        count.check(endings.findall(came) == endings.findall(source), f"the line endings of {place}")


def all_of(data, encoding):
    """The items, and those before a malformed escape with its line: its kind may be another after a conversion."""
    try:
        return todrenval.items(data, encoding=encoding, errors="replace"), None
    except todrenval.MalformedEscape as error:
        return error.items, error.line


def try_conversions(count):
    numbers = random.Random(2)
    alphabet = ["a", "=", " ", "\n", "\r", "#", "\\", "u", "\\u00e9", "\\u20ac", "\\u003d", "\\ud83d", "\\udc1e", "e9", "\0", "\x81"]
    alphabet += ["é", "€", "あ", "\U0001f41e", "\ufeff", "ï", "»", "¿", "þ", "ÿ", "\u0d0a"]
    for _ in range(1500):
        text = "".join(numbers.choices(alphabet, k=numbers.randrange(16)))
        for encoding in ("cp1252", "utf-8", "utf-16-le", "utf-16-be"):
            source = text.encode(encoding, "ignore")
            if source and numbers.randrange(8) == 0:
                # Bytes that aren't text.
                source = source[1:] if numbers.randrange(2) else source[:-1] + b"\xff"
            try_conversion(count, source, encoding, *numbers.choice(CONVERSIONS))
    pieces = (b"\\", b"u", b"=", b"\n", b"\0", b"\xd8", b"\xef", b"\xbb\xbf", b"\xfe", b"\xff", b"\xc3", b"\x80")
    for size in range(4):
        for source in map(b"".join, itertools.product(pieces, repeat=size)):
            encoding = numbers.choice(("cp1252", "utf-8", "utf-16-le", "utf-16-be"))
            try_conversion(count, source, encoding, *numbers.choice(CONVERSIONS))
    for times in (1, 1000, 100000):
        count.check(todrenval.convert(b"\xe9" * times, "ascii", encoding="cp1252") == b"\\u00e9" * times, f"{times} characters to ASCII")


def as_java_reads(data):
    """The pairs of a file in ISO 8859-1, as Python's own codec decodes it."""
    return todrenval.loads(data.decode("latin-1").encode(), errors="replace")


def try_latin_1(count):
    """Under iso-8859-1 and its labels, files are read as cp1252, and what is put in is read alike by Python's codec for
    ISO 8859-1: all 256 characters that this has, and others."""
    for byte in range(256):
        if bytes([byte]) in b"\t\n\f\r =:\\":
            continue
        read = todrenval.loads(b"k=" + bytes([byte]), encoding="latin1")
        count.check(read == todrenval.loads(b"k=" + bytes([byte]), encoding="cp1252"), f"byte {byte:x}, as cp1252")
        is_alike = read == {"k": bytes([byte]).decode("latin-1")}
        is_other = 0x80 <= byte < 0xA0 and byte not in (0x81, 0x8D, 0x8F, 0x90, 0x9D)
        count.check(is_alike != is_other, f"byte {byte:x}, as Python has it: {read}")
    numbers = random.Random(4)
    others = [chr(numbers.choice((0x100, 0x2000, 0x10000)) + numbers.randrange(0x200)) for _ in range(200)]
    characters = [*map(chr, range(256)), *{bytes([byte]).decode("cp1252", "replace") for byte in range(128, 160)}, *others]
    for number, character in enumerate(characters):
        label = ("iso-8859-1", "latin1", "L1", "ISO_8859-1", "cp819")[number % 5]
        named = {"encoding": label, "ascii_only": False}
        wanted = {"aa": "1", character: character}
        document = todrenval.Document(b"aa=1\n", **named)
        document[character] = character
        made = {
            "set_value": todrenval.set_value(b"aa=1\n", character, character, **named),
            "set_key": todrenval.set_key(b"aa=1\n", character, character, **named),
            "edit": todrenval.edit(b"aa=1\n", {character: character}, **named),
            "a document": bytes(document),
            "dumps": todrenval.dumps(wanted, **named),
            "dumps in the other order": todrenval.dumps({character: character, "aa": "1"}, readable=False, **named),
            "convert": todrenval.convert(todrenval.dumps(wanted, ascii_only=False), label, readable=True),
            "convert of cp1252": todrenval.convert(todrenval.dumps(wanted, encoding="cp1252", ascii_only=False), label, encoding=label),
        }
        is_one = character < "\x80" or "\xa0" <= character <= "\xff"
        for name, data in made.items():
            place = f"{name} of {character!r} in {label}: {data!r}"
            count.check(as_java_reads(data) == wanted, place)
            count.check(todrenval.loads(data, encoding=label) == wanted, f"{place}, read back")
            count.check(not OTHERWISE.search(data), f"{place}, bytes that mean something else")
            count.check(character < "\x80" or data.isascii() != is_one, f"{place}, as itself or not")
        count.check(todrenval.dumps(wanted, encoding=label).isascii(), f"dumps of {character!r}, ASCII only")
    # What stands in a file stays, and after a mark of UTF-8 what is put in is ASCII.
    named = {"encoding": "iso-8859-1", "ascii_only": False}
    count.check(todrenval.set_value(b"# \x80\na=\x80\n", "b", "\u20ac\xe9", **named) == b"# \x80\na=\x80\nb=\\u20ac\xe9\n", "what stands")
    came = todrenval.set_value(b"\xef\xbb\xbfa=\xc3\xa9\n", "b", "\xe9", **named)
    count.check(came == b"\xef\xbb\xbfa=\xc3\xa9\nb=\\u00e9\n", f"after a mark: {came}")
    came = todrenval.dumps([Comment("\u20ac\x85\xe9\0\\"), ("\xef\xbb\xbf", "\xa0")], prefix="# \u201c", ending="\r", **named)
    count.check(came == b"# \\u201c\\u20ac\\u0085\xe9\0\\\\\r\xef\xbb\xbf=\xa0\r", f"a comment: {came}")
    for text in ("\xef\xbb\xbf", "\xfe\xff", "\xff\xfe"):
        for came in (todrenval.dumps({text: ""}, **named), todrenval.set_key(b"", text, "", **named)):
            count.check(came == f"\\u00{ord(text[0]):02x}{text[1:]}=\n".encode("latin-1"), f"a front like a mark: {came}")


# What cp1252 has and ISO 8859-1 reads as control characters.
OTHERWISE = re.compile(rb"[\x80-\x9f]")


def as_read_back(item):
    """An item without its line. Of a comment that is written and read, blanks at its ends are lost, which were escapes."""
    return item.text.strip(" \t\f") if isinstance(item, Comment) else item[:2]


def try_header(count):
    """The numbers of the module are those of the header."""
    header = (TOP / "bindings/c/todrenval.h").read_text()
    numbers = {name: int(number) for name, number in re.findall(r"TODRENVAL_(\w+) = (\d+)", header)}
    for status in Status:
        count.check(numbers[status.name] == status, status.name)
    for kind in todrenval.FindingKind:
        count.check(numbers["FOUND_" + kind.name] == kind, kind.name)
    count.check(f"TODRENVAL_VERSION {todrenval.VERSION}\n" in header, "the version")
    for each in (SetKey("", ""), RemoveKey(""), SetValue("", ""), RenameKey("", ""), SetComment("", ""), RemoveWithComment("")):
        name = "EDIT" + re.sub("([A-Z])", r"_\1", type(each).__name__).upper()
        count.check(numbers[name] == todrenval._edit_record(each)[0], name)
    for label, name in (("cp1252", "WINDOWS_1252"), ("utf-8", "UTF_8"), ("ascii", "ASCII"), ("iso8859-1", "LATIN_1")):
        count.check(numbers["TO_" + name] == todrenval._TARGETS[label], name)
    count.check(not set(todrenval._TARGETS.values()) & set(todrenval._ENCODINGS.values()), "numbers of targets of their own")
    flags = {"ASCII_ONLY": todrenval._ASCII_ONLY, "READABLE": todrenval._READABLE, "READ_COMMENTS": todrenval._READ_COMMENTS}
    flags.update(STRICT=todrenval._STRICT, RAW_COMMENTS=todrenval._RAW_COMMENTS, RAW=todrenval._RAW, SPANS=todrenval._SPANS)
    flags.update(CRLF=todrenval._ENDINGS["\r\n"], CR=todrenval._ENDINGS["\r"], LATIN_1=todrenval._LATIN_1)
    for name, flag in flags.items():
        count.check(numbers[name] == flag, name)
    for line, name in ((Comment(""), "COMMENT"), (Pair("", ""), "PAIR")):
        count.check(numbers[name] == todrenval._line_record(line)[0], name)
    group = todrenval._result("todrenval_items", 200, b"\n", 0, todrenval._SPANS)
    count.check(group[0] == numbers["BLANK"] + 16 and len(group) == 32 + 96, "a blank line with spans")
    count.check("_SPANS_SIZE 96\n" in header and "_WITH_SPANS 16\n" in header, "the size of spans")
    for name in todrenval._ARGUMENTS:
        count.check(f"int {name}(" in header, name)


def try_examples(count):
    failed, run = doctest.testmod(todrenval)
    count.passed += run - failed
    count.failed += failed


def try_pages(count):
    """The functions of docs/C.md are those of the example, and the programs of docs/PYTHON.md print what the page says."""
    pages = {name: (TOP / f"docs/{name}.md").read_text(encoding="utf-8") for name in ("C", "PYTHON")}
    shown, example = re.search(r"^```c\n(.*?)^```$", pages["C"], re.MULTILINE | re.DOTALL), (TOP / "bindings/c/example.c").read_text()
    count.check(bool(shown) and shown[1] in example, "docs/C.md has other functions in C")
    programs = re.findall(r"^```python\n(.*?)^```$.*?^```stdout\n(.*?)^```$", pages["PYTHON"], re.MULTILINE | re.DOTALL)
    count.check(len(programs) == pages["PYTHON"].count("\n```python\n") == 2, f"{len(programs)} programs in docs/PYTHON.md")
    here = os.getcwd()
    for program, stdout in programs:
        printed = io.StringIO()
        with tempfile.TemporaryDirectory() as folder, contextlib.redirect_stdout(printed):
            os.chdir(folder)
            try:
                exec(compile(program, "docs/PYTHON.md", "exec"), {})
            finally:
                os.chdir(here)
        count.check(printed.getvalue() == stdout, f"docs/PYTHON.md: {printed.getvalue()}")


def main():
    count = Count()
    run_tables(count)
    for test in (
        try_arguments, try_files, try_special_files, try_file_errors, try_documents, try_operators, try_created, try_shared_documents,
        try_zeros, try_types, try_errors, try_lists, try_newer, try_room, try_findings, try_types_of_results, try_comments, try_keys,
        try_lists_of_edits, try_groups, try_short_files,
        try_round_trips, try_random, try_conversions, try_latin_1, try_threads, try_header, try_examples, try_pages,
    ):
        try:
            test(count)
        except Exception as error:  # noqa: BLE001
            count.check(False, f"{test.__name__}: {error!r}")
    print(f"{count.passed} passed, {count.failed} failed")
    return 1 if count.failed else 0


if __name__ == "__main__":
    sys.exit(main())
