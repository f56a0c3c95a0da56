#!/usr/bin/env python3
"""Compares what the calls of the Python module say about random sources: groups, items, values and findings.

    tests/try_groups.py FOLDER [SEEDS [SOURCES]]

FOLDER is one that bindings/build.sh made. SEEDS seeds, 3 if left out, with SOURCES sources each, 20,000 if left out: short
ones in windows-1252, UTF-8 and UTF-16, many with joins, malformed escapes, bytes that aren't text or a byte order mark.

The groups of a source are the source, and their places, lines and columns are those of its bytes. Their texts are those of
`items` where comments are read, stand as they are, or are passed over, up to the first malformed escape that counts; `get`
and `loads` give the values of the latter; malformed escapes and repeated keys are those of `findings`. What isn't text is
what the decoders of Python refuse. It prints what differs, at most twenty lines, and then how many sources do. Exit status
1 if one does.
"""
import os
import random
import re
import sys

LINE_ENDING = re.compile(r"\r\n|\r|\n")
IN_BYTES = re.compile(rb"\r\n|\r|\n")
SEPARATOR = re.compile(rb"[ \t\f]*[=:]?[ \t\f]*")
MARKS = {"utf-8": b"\xef\xbb\xbf", "utf-16-le": b"\xff\xfe", "utf-16-be": b"\xfe\xff"}
TEXTS = ["a", "b", "k", "=", ":", " ", " ", "\t", "\f", "\\", "\\", "\\", "\\u", "\\u00e9", "\\u0061", "\\ud83d", "\\ude00",
         "0", "#", "#", "!", "\n", "\n", "\r", "\r\n", "\\\n", "\\\r\n ", "\\\n   ", "é", "€", "\U0001f600", "\ufeff", "\0",
         "\ufffd", "k = v", "\n# C:\\users\n", "\n! c \t\r\n", "\na=1\n"]
BYTES = [b"\xff", b"\xe2\x82", b"\x80", b"\x81", b"\xed\xa0\x80", b"\xef\xbb\xbf", b"\xc3\xa9", b"\xfe\xff"]
WIDE = [b"\x00\xd8", b"\x00\xdc", b"\xd8\x00", b"\xdc\x00"]


def sources_of(seed, count):
    chosen = random.Random(seed)
    for _ in range(count):
        encoding = chosen.choice(("cp1252", "utf-8", "utf-16-le", "utf-16-be"))
        is_wide = encoding.startswith("utf-16")
        source = b""
        for _ in range(chosen.randint(0, 24)):
            if chosen.random() < (0.02 if is_wide else 0.1):
                source += chosen.choice(WIDE if is_wide else BYTES)
            else:
                source += chosen.choice(TEXTS).encode(encoding, "ignore")
        if is_wide and chosen.random() < 0.02:
            source += b"\0"
        if chosen.random() < 0.1:
            source = chosen.choice(list(MARKS.values())) + source
        yield source, encoding


class Source:
    """A source, its text without a byte order mark, and where it begins."""

    def __init__(self, data, encoding):
        self.data = data
        self.named = {"encoding": encoding, "errors": "replace"}
        marked = [name for name, mark in MARKS.items() if data.startswith(mark)]
        self.in_force = marked[0] if marked else encoding
        self.start = len(MARKS[marked[0]]) if marked else 0
        self.is_wide = self.in_force.startswith("utf-16")

    def not_text(self):
        """The line for which it isn't text, or None: of the first U+0000 where none may be, or else of what Python doesn't
        decode."""
        body = self.data[self.start :]
        place = body.find(b"\0") if self.in_force == "utf-8" and not self.start else -1
        if self.in_force == "cp1252":
            return None
        if place < 0:
            try:
                body.decode(self.in_force)
            except UnicodeDecodeError as error:
                place = error.start
        return len(LINE_ENDING.findall(body[:place].decode(self.in_force, "replace"))) + 1 if place >= 0 else None

    def line_of(self, place):
        """The number of the line that a place is in, and how many bytes of it come before the place, and one."""
        endings = list(IN_BYTES.finditer(self.data, self.start, place))
        return len(endings) + 1, place - (endings[-1].end() if endings else self.start) + 1

    def as_utf_8(self):
        """The same in UTF-8, with a byte order mark, so that a second one is text."""
        return MARKS["utf-8"] + self.data[self.start :].decode(self.in_force, "replace").encode("utf-8")


def resolved(text):
    """A text that stands as it is, with its escapes resolved. None of them is malformed."""
    found, place = [], 0
    while place < len(text):
        if text[place] != "\\":
            found.append(text[place])
            place += 1
        elif text[place + 1 : place + 2] == "u":
            found.append(chr(int(text[place + 2 : place + 6], 16)))
            place += 6
        else:
            escaped = text[place + 1 : place + 2]
            found.append({"t": "\t", "n": "\n", "r": "\r", "f": "\f"}.get(escaped, escaped))
            place += 2
    return "".join(found).encode("utf-16", "surrogatepass").decode("utf-16")


def outcome(todrenval, call, *arguments, **named):
    """What a call gives, also before an error, and the status and the line of the error."""
    try:
        return call(*arguments, **named), None
    except todrenval.PropertiesError as error:
        return getattr(error, "items", None) if call is todrenval.items else None, (error.status, error.line)


def differences(todrenval, source):
    """Yields what differs, in words."""
    data, named = source.data, source.named
    line = source.not_text()
    for call, more in ((todrenval.items, []), (todrenval.get, ["a"]), (todrenval.convert, ["utf-8"]), (todrenval.findings, [])):
        error = outcome(todrenval, call, data, *more, encoding=named["encoding"])[1]
        refused = error[1] if error and error[0] == todrenval.Status.NOT_TEXT else None
        if refused != line:
            yield f"{call.__name__} says {error}, and line {line} isn't text"
    if source.is_wide:
        error = outcome(todrenval, todrenval.groups, data, **named)[1]
        if error != (todrenval.Status.UNSUPPORTED, None):
            yield f"groups say {error}"
        raw = todrenval.groups(source.as_utf_8(), errors="replace")
        read = todrenval.groups(source.as_utf_8(), errors="replace", comments="read")
    else:
        raw = todrenval.groups(data, **named)
        read = todrenval.groups(data, comments="read", **named)
        yield from of_places(todrenval, source, raw)
    yield from of_texts(todrenval, source, raw, read)
    yield from of_findings(todrenval, source, raw)


def of_places(todrenval, source, groups):
    """What is wrong with the places of groups, and with what they say of the bytes there."""
    data, place = source.data, source.start
    standing = todrenval.groups(data, raw=True, **source.named)
    for group, as_it_stands in zip(groups, standing):
        spans, what = group.spans, f"the group at {place}"
        if spans.start != place or list(spans) != sorted(spans) or spans.next <= spans.start:
            yield f"{what} has the places {spans}"
        if source.line_of(place)[0] != group.line:
            yield f"{what} is in line {group.line}"
        if not IN_BYTES.fullmatch(data, spans.end, spans.next) and not spans.end == spans.next == len(data):
            yield f"{what} ends in {data[spans.end : spans.next]!r}"
        if group[2:] != as_it_stands[2:]:
            yield f"{what} is another one if it stands as it is"
        flaw = group.flaw
        if flaw and (data[flaw.start : flaw.start + 2] != b"\\u" or source.line_of(flaw.start) != (flaw.line, flaw.column)):
            yield f"{what} has {flaw}"
        if flaw and not (spans.key_start <= flaw.start < spans.value_end):
            yield f"{what} has {flaw} outside of its texts"
        if group.ill_formed_line != ill_formed_line(source, group):
            yield f"{what} isn't text in line {group.ill_formed_line}"
        yield from (f"{what}: {each}" for each in of_parts(todrenval, source, group, as_it_stands))
        place = spans.next
    if place != len(data) or len(groups) != len(standing):
        yield f"the groups end at {place}"


def ill_formed_line(source, group):
    if source.in_force == "cp1252":
        return None
    for number, line in enumerate(IN_BYTES.split(source.data[group.spans.start : group.spans.end]), group.line):
        try:
            line.decode("utf-8")
        except UnicodeDecodeError:
            return number
    return None


def joined(part):
    """What lies in lines, joined: without backslashes that join two, or would, and the line ending and blanks behind these."""
    return re.sub(rb"(\\[^\r\n])|\\(?:\r\n|\r|\n|$)[ \t\f]*", lambda found: found[1] or b"", part, flags=re.DOTALL)


def of_parts(todrenval, source, group, as_it_stands):
    """What is wrong with the parts of a group."""
    data, spans = source.data, group.spans
    texts = {todrenval.Pair: lambda item: [item.key, item.value], todrenval.Comment: lambda item: [item.text]}
    if group.item is None or as_it_stands.item is None:
        if group.item is not as_it_stands.item or joined(data[spans.start : spans.end]).strip(b" \t\f"):
            yield f"it is blank, and {data[spans.start : spans.end]!r}"
        return
    came, standing = [texts[type(item)](item) for item in (group.item, as_it_stands.item)]
    is_pair = isinstance(group.item, todrenval.Pair)
    if came != (list(map(resolved, standing)) if is_pair and not group.flaw else standing):
        yield f"{standing} is {group.item}"
    value = data[spans.value_start : spans.value_end]
    if data[spans.start : spans.key_start].strip(b" \t\f"):
        yield f"it has the indent {data[spans.start : spans.key_start]!r}"
    if is_pair:
        parts = [joined(data[spans.key_start : spans.key_end]), joined(value)]
        if not SEPARATOR.fullmatch(joined(data[spans.key_end : spans.value_start])) or spans.value_end != spans.end:
            yield f"it has the separator {data[spans.key_end : spans.value_start]!r}"
    else:
        sign, more = data[spans.key_start : spans.key_end], data[spans.value_end : spans.end]
        # A comment is joined only if it begins in a joined line. Its last backslash may be followed by blanks.
        parts = [value if sign in (b"#", b"!") else joined(value + more).rstrip(b" \t\f")]
        if joined(sign) not in (b"#", b"!") or joined(more).strip(b" \t\f"):
            yield "it isn't a comment"
    if not ill_formed_line(source, group):
        # Python's cp1252 doesn't have five bytes.
        wanted = parts if source.in_force == "utf-8" else [re.sub(rb"[\x81\x8d\x8f\x90\x9d]", b"?", part) for part in parts]
        if [text.encode(source.in_force, "replace") for text in standing] != wanted:
            yield f"{parts} is {standing}"


def up_to_flaw(groups, counts):
    """The items before the first group that counts and has a flaw, and what an error says of that group."""
    found = []
    for group in groups:
        if group.flaw and counts(group.item):
            return found, (group.flaw.status, group.line)
        if group.item is not None:
            found.append(group.item)
    return found, None


def of_texts(todrenval, source, raw, read):
    """What is wrong with items and values, if groups are right."""
    data, named = source.data, source.named

    def is_pair(item):
        return isinstance(item, todrenval.Pair)

    for comments, groups, counts in (("read", read, lambda item: True), ("raw", raw, is_pair), ("skip", raw, is_pair)):
        wanted, error = up_to_flaw(groups, counts)
        if comments == "skip":
            wanted = list(filter(is_pair, wanted))
        came = outcome(todrenval, todrenval.items, data, comments=comments, **named)
        if came != (wanted, error):
            yield f"items, comments {comments}: {came} in place of {(wanted, error)}"
        if comments == "raw":
            continue
        values = None if error else {item.key: item.value for item in wanted if is_pair(item)}
        came = outcome(todrenval, todrenval.loads, data, comments=comments, **named)
        if came != (values, error):
            yield f"loads, comments {comments}: {came} in place of {(values, error)}"
        for key in ["a", "none", *(values or {})]:
            came = outcome(todrenval, todrenval.get, data, key, comments=comments, **named)
            if came != ((values or {}).get(key), error):
                yield f"get of {key!r}, comments {comments}: {came} in place of {((values or {}).get(key), error)}"


def of_findings(todrenval, source, groups):
    """What is wrong with findings, if groups are right."""
    first, wanted = {}, []
    for group in groups:
        if group.flaw:
            in_comment = isinstance(group.item, todrenval.Comment)
            column = group.flaw.column if group.flaw.line == group.line else None
            wanted.append((group.line, todrenval.FindingKind[group.flaw.status.name], None, None, in_comment, column))
        elif isinstance(group.item, todrenval.Pair) and first.setdefault(group.item.key, group.line) != group.line:
            column = group.spans.key_start - group.spans.start + 1
            wanted.append((group.line, todrenval.FindingKind.REPEATED_KEY, group.item.key, first[group.item.key], False, column))
    if source.is_wide:
        wanted = [(*each[:-1], None) for each in wanted]
    found = todrenval.findings(source.data, **source.named)
    if found != wanted:
        yield f"findings {found} in place of {wanted}"


def main():
    words = sys.argv[1:]
    seeds, count = (int(words[1]) if len(words) > 1 else 3), (int(words[2]) if len(words) > 2 else 20000)
    os.environ.pop("TODRENVAL_LIBRARY", None)
    sys.path.insert(0, words[0])
    sys.dont_write_bytecode = True
    import todrenval

    differing = 0
    for seed in range(1, seeds + 1):
        for data, encoding in sources_of(seed, count):
            found = list(differences(todrenval, Source(data, encoding)))
            differing += bool(found)
            for each in found[: max(0, 21 - differing)]:
                print(f"{data!r} in {encoding}: {each}")
    print(f"{seeds * count} sources, {differing} differ")
    sys.exit(differing > 0)


main()
