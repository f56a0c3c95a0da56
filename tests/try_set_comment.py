#!/usr/bin/env python3
"""Compares what `propedit set-comment` prints with a model of its own, on 2,000 random files, or on
HOW_MANY of them from file FIRST on.

    tests/try_set_comment.py PROPEDIT [HOW_MANY [FIRST]]

The lines of TEXT replace the comment lines directly above the last pair with KEY, down from the last separator of
documents, and look like the first of these that has a text, but never have the separator's sign. Every other byte stays, and no byte changes if the comment has these lines already. Then `comment` prints
these lines, setting them again changes nothing, and `list -v` and `get` print what they did. A list of edits gives what
its edits give one after another, but of several texts for one KEY without another edit between them the last one counts.
"""
import itertools
import random
import re
import subprocess
import sys

REFUSED = "refused"
BLANKS = " \t\f"
ENDS = ["\n", "\r", "\r\n"]
MARK = b"\xef\xbb\xbf"
MARKS = [MARK, b"\xfe\xff", b"\xff\xfe"]
WINDOWS_1252 = [bytes([byte]).decode("cp1252", "ignore") or chr(byte) for byte in range(256)]

# ---- random files and texts

ENCODINGS = ["utf-8", "utf-8", "windows-1252", "iso-8859-1"]
NOTE = re.compile(rb"propedit: standard input:\d+: has a byte that Java reads as a control character; [^\n]*\n")
# The last of these may be byte order marks, in UTF-8 or in windows-1252.
MARKED = ["\ufeffk", "\ufeff", "ï»¿", "ÿþ"]
KEYS = ["a", "b", "a b", "é", "", "#", *MARKED]
SPELT = {"a": ["a", "\\u0061", "\\a", "\\u00\\\n  61"], "a b": ["a\\ b"], "é": ["é", "\\u00e9"], "#": ["\\#"]}
SEPARATORS = ["=", " : ", "=\\\n  ", "\\\r\n\t="]
VALUES = ["", "1", "x\\", "x\\\r  # y", "x\\\n\\\r\n  # y", "# no", "é", "\\u00e9", "1\\\\"]
INDENTS = ["", "", "  ", "\t", " \f"]
GAPS = ["", " ", " ", "\t", "  ", "\f"]
TEXTS = ["", "", "one", "two ", " three", "\t four", "C:\\users", "ends \\", "\\", "\\u12", "#!", "a=1", "é", "\x7f\x01"]
# A blank line, and a comment that joining makes: no comment reaches past these.
OTHERS = ["", " \t", "\\\n# no", "  \\\r\\\n! no", "#no=1\\"]
PAST_ASCII = ["あ", "é€", "😀\\", "\x80\x81", "\ufeff", "ÿþ\u2028", "\x85é "]


def drawn_comment(draw):
    if draw.random() < 0.2:
        return draw.choice("#!") + "---" + draw.choice(["", "", " \t"])
    return draw.choice(INDENTS) + draw.choice("#!") + draw.choice(GAPS) + draw.choice(TEXTS + PAST_ASCII[1:])


def drawn_pair(draw):
    key = draw.choice(KEYS)
    front = draw.choice(INDENTS + ["\\\n", "  \\\r\n\\\n "])
    return front + draw.choice(SPELT.get(key, [key])) + draw.choice(SEPARATORS) + draw.choice(VALUES)


def drawn_file(draw, encoding):
    """A file. At times it has a malformed escape, or a byte order mark."""
    ends = draw.choice([ENDS, ENDS, ["\n"], ["\r"], ["\r\n"]])
    parts = []
    for _ in range(draw.randrange(1, 7)):
        parts += [drawn_comment(draw) + draw.choice(ends) for _ in range(draw.choice([0, 0, 1, 1, 2, 3]))]
        part = draw.choice(OTHERS) if draw.random() < 0.25 else drawn_pair(draw)
        parts.append(part + draw.choice(ends))
    if draw.random() < 0.15:
        parts[:0] = [drawn_comment(draw) + draw.choice(ends), draw.choice(MARKED) + "=1" + draw.choice(ends)]
    if draw.random() < 0.02:
        parts.insert(draw.randrange(len(parts)), "k=\\u12" + draw.choice(ends))
    whole = "".join(parts)
    if draw.random() < 0.3:
        whole = whole.rstrip("\r\n")
    mark = MARK if draw.random() < 0.1 else b""
    return mark + encoded(whole, "utf-8" if mark or encoding == "utf-8" else "windows-1252")


def drawn_text(draw, comment):
    """A TEXT, which at times is empty or has the lines of the comment."""
    if draw.random() < 0.2:
        return ""
    lines = [draw.choice(TEXTS + PAST_ASCII) for _ in range(draw.choice([1, 1, 2, 3, 4]))]
    if draw.random() < 0.2:
        lines = comment[:]
    return "".join(line + draw.choice(ENDS) for line in lines[:-1]) + "".join(lines[-1:]) + draw.choice(["", "", *ENDS])


# ---- the model


def encoded(text, encoding):
    """Bytes of the text. What windows-1252 doesn't have is left out."""
    return text.encode() if encoding == "utf-8" else bytes(WINDOWS_1252.index(c) for c in text if c in WINDOWS_1252)


def decoded(data, encoding):
    return data.decode() if encoding == "utf-8" else "".join(WINDOWS_1252[byte] for byte in data)


def lines_of(text):
    """The lines of a text, each with its ending. A last one without characters is none."""
    return re.findall(r"[^\r\n]*(?:\r\n|\r|\n)|[^\r\n]+", text)


def is_open(line):
    line = line.rstrip("\r\n")
    return (len(line) - len(line.rstrip("\\"))) % 2 == 1


def comment_parts(line):
    """Indent, sign, blank, text and ending of a comment line, or None."""
    found = re.fullmatch(r"([ \t\f]*)([#!])([ \t\f]?)([^\r\n]*)(\r\n|\r|\n|)", line)
    return found and found.groups()


def groups_of(text):
    """The lines of each logical line."""
    groups, continues = [], False
    for line in lines_of(text):
        if continues:
            groups[-1].append(line)
        else:
            groups.append([line])
        is_comment = len(groups[-1]) == 1 and comment_parts(line)
        continues = not is_comment and is_open(line)
    return groups


def is_comment_line(group):
    return len(group) == 1 and comment_parts(group[0]) is not None


def key_of(group):
    """The key of a group, None if it is no pair, or that it has a malformed escape."""
    parts = [line.rstrip("\r\n") for line in group]
    parts = [part[:-1] if is_open(part) else part for part in parts]
    line = "".join(part.lstrip(BLANKS) for part in parts)
    if is_comment_line(group) or line[:1] in ("", "#", "!"):
        return None
    if any(escape == "u" for escape in re.findall(r"\\(u[0-9a-fA-F]{4}|.)", line, re.S)):
        return REFUSED
    spelt = re.match(r"(?:\\.|[^\\ \t\f=:])*", line, re.S)[0]
    return re.sub(r"\\(?:u([0-9a-f]{4})|(.))", lambda m: chr(int(m[1], 16)) if m[1] else m[2], spelt, flags=re.S)


def below_separators(lines):
    """The last of these comment lines, down from the last separator of documents among them."""
    below = []
    for _, run in itertools.groupby(lines, lambda line: line.lstrip(" \t\f")[0]):
        run = list(run)
        below = [] if all(re.fullmatch("[#!]---[ \t\f]*", line.rstrip("\r\n")) for line in run) else below + run
    return below


def comments_of(text):
    """The key of each pair with the texts of the comment lines directly above it; none if the file is refused."""
    found, above = [], []
    for group in groups_of(text or ""):
        key = key_of(group)
        if key is REFUSED:
            return []
        if is_comment_line(group):
            above.append(group[0])
            continue
        if key is not None:
            found.append((key, [comment_parts(line)[3] for line in below_separators(above)]))
        above = []
    return found


def last_comment(found, key):
    """The texts of the comment of a key."""
    return dict(found).get(key, [])


def divided(text, key):
    """What is before the comment of a key, the sign of a separator directly above, the comment's lines, the lines of the
    pair, and what is after it."""
    groups = groups_of(text)
    last = max(at for at, group in enumerate(groups) if key_of(group) == key)
    first = last
    while first > 0 and is_comment_line(groups[first - 1]):
        first -= 1
    above = [group[0] for group in groups[first:last]]
    first = last - len(below_separators(above))
    separator = above[len(above) - (last - first) - 1][0] if len(above) > last - first else ""
    whole = lambda part: "".join("".join(group) for group in part)
    return whole(groups[:first]), separator, [group[0] for group in groups[first:last]], groups[last], whole(groups[last + 1 :])


def style_for(comment, pair, source):
    """Indent, sign, blank and ending of new lines."""
    for indent, sign, blank, text, end in map(comment_parts, comment):
        if text:
            return indent, sign, blank, end
    indent = re.match(r"[ \t\f]*", pair[0])[0]
    # A last line that goes on where the file ends has an ending, but the pair has none.
    end = "" if is_open(pair[-1]) else re.search(r"(?:\r\n|\r|\n|)\Z", pair[-1])[0]
    ends = re.findall(r"\r\n|\r|\n", source)
    return indent, "#", " ", end or (ends[-1] if ends else "\n")


def stands(character, encoding, latin_1, ascii_only):
    """Whether a character may stand unescaped."""
    if ord(character) < 0x80:
        return True
    if ascii_only:
        return False
    if latin_1:
        return encoding != "utf-8" and 0xA0 <= ord(character) <= 0xFF
    return encoding == "utf-8" or character in WINDOWS_1252


def escape(character):
    units = character.encode("utf-16-be")
    return "".join(f"\\u{units[at]:02x}{units[at + 1]:02x}" for at in range(0, len(units), 2))


def read(data, named):
    """The byte order mark of a file, its encoding, and its text, which is None for a file that no edit takes."""
    mark = MARK if data.startswith(MARK) else b""
    encoding = "utf-8" if mark or named == "utf-8" else "windows-1252"
    try:
        return mark, encoding, None if data[:2] in MARKS else decoded(data[len(mark) :], encoding)
    except UnicodeDecodeError:
        return mark, encoding, None


def comment_set(data, named, ascii_only, key, text):
    """The status, what is printed, and whether a character was escaped."""
    mark, encoding, source = read(data, named)
    if source is None or REFUSED in map(key_of, groups_of(source)):
        return 2, b"", False
    found = comments_of(source)
    if key not in dict(found):
        return 1, b"", False
    lines = [line.rstrip("\r\n") for line in lines_of(text)]
    if last_comment(found, key) == lines:
        return 0, data, False
    before, separator, comment, pair, after = divided(source, key)
    indent, sign, blank, end = style_for(comment, pair, source)
    if sign == separator:
        sign = "!" if sign == "#" else "#"
    new, escaped = "", False
    for line in lines:
        gap = blank if line else ""
        if not gap and line[:1] in tuple(BLANKS):
            gap = " "
        spelt = "".join(c if stands(c, encoding, named == "iso-8859-1", ascii_only) else escape(c) for c in line)
        escaped = escaped or spelt != line
        new += indent + sign + gap + spelt + end
    body = encoded(before + new + "".join(pair) + after, encoding)
    guard = b"\n" if not mark and body.startswith(tuple(MARKS)) else b""
    return 0, mark + guard + body, escaped


# ---- the program


def propedit(*words, data):
    """The status, what propedit prints, and its message, without the note on ISO 8859-1."""
    done = subprocess.run([PROPEDIT, *words], input=data, stdout=subprocess.PIPE, stderr=subprocess.PIPE, check=False)
    return done.returncode, done.stdout, NOTE.sub(b"", done.stderr) if "iso-8859-1" in words else done.stderr


def check_laws(data, words, result, escaped, fail):
    """What holds of every result."""
    named, key, text = words[2], *words[-2:]
    option = ["-e", named]
    lines = [line.rstrip("\r\n") for line in lines_of(text)]
    if not escaped:
        printed = propedit("comment", *option, "--", key, data=result)
        if printed != (0, "".join(line + "\n" for line in lines).encode(), b""):
            fail(f"then comment prints {printed}")
        again = propedit(*words, data=result)
        if again != (0, result, b""):
            fail(f"set again it gives {again}")
    for command in ["list", "-v", "-z", *option], ["get", "-z", "-d", "none", *option, "--", *KEYS]:
        before, after = propedit(*command, data=data), propedit(*command, data=result)
        if before != after:
            fail(f"then {command} prints {after}, and not {before}")
    before, after = comments_of(read(data, named)[2]), comments_of(read(result, named)[2])
    at = max(at for at, pair in enumerate(before) if pair[0] == key)
    if after != [*before[:at], (key, last_comment(after, key) if escaped else lines), *before[at + 1 :]]:
        fail(f"then the comments are {after}, and not {before}")


def last_texts(edits):
    """The edits, with one comment for each key of those that follow each other: the last one, in the place of the first."""
    one_each, run = [], {}
    for edit in [*edits, None]:
        if edit and edit[0] == "set-comment":
            run[edit[2]] = edit
            continue
        one_each += [*run.values(), *([edit] if edit else [])]
        run = {}
    return one_each


def check_list(data, named, draw, fail):
    """Compares a list of edits with the same edits one after another."""
    # What would begin like a byte order mark gets a line feed, which a later edit may make needless.
    if any(mark in data for mark in MARKS):
        return
    comments = comments_of(read(data, named)[2])
    edits = []
    for _ in range(draw.randrange(2, 6)):
        key, text = draw.choice(KEYS[:6]), draw.choice(KEYS[:6])
        new_comment = ["set-comment", "--", key, drawn_text(draw, last_comment(comments, key))]
        others = ["remove", "--", key], ["set", "--", key, text], ["rename", "--", key, text]
        edits.append(draw.choice([new_comment, new_comment, *others]))
    wanted = (0, data, b"")
    for edit in last_texts(edits):
        wanted = propedit("-e", named, *edit, data=wanted[1])
        if wanted[0] != 0:
            break
    got = propedit("-e", named, *sum(edits, []), data=data)
    if got != wanted:
        fail(f"the list {edits} gives {got}, and not {wanted}")


def main():
    told = {}
    for number in range(FIRST, FIRST + HOW_MANY):
        draw = random.Random(number)
        named = draw.choice(ENCODINGS)
        data = drawn_file(draw, named)
        comments = comments_of(read(data, named)[2])
        keys = [key for key, _ in comments]
        key = draw.choice(keys if keys and draw.random() < 0.9 else KEYS)
        text = drawn_text(draw, last_comment(comments, key))
        words = ["set-comment", "-e", named, *draw.choice([[], [], ["-a"]]), "--", key, text]
        fail = lambda why: sys.exit(f"file {number}, {data}, {words}: {why}")
        status, result, escaped = comment_set(data, named, "-a" in words, key, text)
        got = propedit(*words, data=data)
        if got[:2] != (status, result) or (status == 0) != (got[2] == b""):
            fail(f"{got}, and not {status, result}")
        if status == 0:
            check_laws(data, words, result, escaped, fail)
        set_or_same = "the same" if result == data else "escaped" if escaped else "set"
        what = [set_or_same, "no key", "refused"][status]
        told[what] = told.get(what, 0) + 1
        if draw.random() < 0.3:
            check_list(data, named, draw, fail)
    print(f"{HOW_MANY} files:", ", ".join(f"{count} {what}" for what, count in sorted(told.items())))


if len(sys.argv) not in (2, 3, 4):
    sys.exit(__doc__)
PROPEDIT = sys.argv[1]
HOW_MANY, FIRST = [*map(int, sys.argv[2:]), *(2000, 0)[len(sys.argv) - 2 :]]
main()
