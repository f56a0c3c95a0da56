#!/usr/bin/env python3
"""Compares what Java reads in files before and after an edit of propedit, on 5,000 random files.

    tests/try_java_edits.py PROPEDIT

It takes `java` and `javac`. `rename` gives Java's map of the file with the value of the old key under the new one,
`set-comment` and `remove --with-comment` its map without a change and without the key.
"""
import pathlib
import random
import subprocess
import sys
import tempfile

LOAD = """
import java.io.*;
import java.nio.charset.StandardCharsets;
import java.nio.file.*;
import java.util.*;

public class Load {
    public static void main(String[] folder) throws IOException {
        PrintStream out = new PrintStream(new FileOutputStream(FileDescriptor.out), false, "UTF-8");
        for (int number = 0; number < Integer.parseInt(folder[1]); number++) {
            Properties pairs = new Properties();
            try (Reader input = Files.newBufferedReader(Paths.get(folder[0], "" + number), StandardCharsets.UTF_8)) {
                pairs.load(input);
            }
            out.print(pairs.size() + "\\0");
            for (String key : pairs.stringPropertyNames()) {
                out.print(key + "\\0" + pairs.getProperty(key) + "\\0");
            }
        }
        out.flush();
    }
}
"""
HOW_MANY = 5000
KEYS = ["a", "b", "é", "a b", ":", "", "ключ", "\\", "#", "!x", "a=b", "\U0001f600"]
LEADS = ["", "", "  ", "\\\n", "\t\\\r\n \\\r "]
SEPARATORS = ["=", " = ", ": ", " ", "\\\n  = ", " \\\r\n  "]
VALUES = ["1", "x\\\n  y", "# no", "a\\\\", "\\u00e9=", "C:\\\\tmp", "€ \\ud83d\\ude00"]
COMMENTS = ["# one", "  ! \\u12", "#", "# of \\", "\t!!", "# é \\\\"]
TEXTS = ["", "one", " two", "of \\", "a\nb", "\\u12", "\n", "é €", "# =", "a\r\n\rb"]
ENDS = ["\n", "\r\n", "\r"]


def spelt(key, draw):
    """A key as a file may have it: some characters are escapes, and some lines go on."""
    shown = ""
    for character in key:
        if shown and draw.random() < 0.1:
            shown += "\\\n  "
        shown += "\\" + character if character in " :=#!\\" else character
    return shown


def drawn_file(draw):
    """A file of pairs, comments and blank lines, and the keys of its pairs."""
    lines, keys = [], []
    for _ in range(draw.randrange(1, 9)):
        what, end = draw.random(), draw.choice(ENDS)
        if what < 0.35:
            lines.append(draw.choice(COMMENTS) + end)
        elif what < 0.45:
            lines.append(draw.choice([" ", "\t \t"]) + end)
        else:
            keys.append(draw.choice(KEYS))
            lines.append(draw.choice(LEADS) + spelt(keys[-1], draw) + draw.choice(SEPARATORS) + draw.choice(VALUES) + end)
    if draw.random() < 0.3:
        lines[-1] = lines[-1].rstrip("\r\n")
    return "".join(lines), keys


def drawn_edit(draw, keys):
    """The arguments of an edit of one of these keys, and what becomes of a map of pairs, if the new key isn't there."""
    key = draw.choice(keys)
    new = draw.choice([other for other in KEYS if other != key])
    kind = draw.choice(["rename", "set-comment", "remove"])
    if kind == "rename":
        return ["rename", "--", key, new], lambda pairs: {new if at == key else at: value for at, value in pairs.items()}
    if kind == "set-comment":
        return ["set-comment", "--", key, draw.choice(TEXTS)], dict
    return ["remove", "--with-comment", "--", key], lambda pairs: {at: value for at, value in pairs.items() if at != key}


def loaded(folder, count):
    """The pairs that Java reads in each file of a folder."""
    done = subprocess.run(["java", "-cp", ROOM, "Load", folder, str(count)], stdout=subprocess.PIPE, check=True)
    texts = iter(done.stdout.decode().split("\0"))
    for _ in range(count):
        size = int(next(texts))
        yield {next(texts): next(texts) for _ in range(size)}


def main():
    old, new = pathlib.Path(ROOM, "old"), pathlib.Path(ROOM, "new")
    old.mkdir()
    new.mkdir()
    changes, refused, number = [], 0, 0
    while len(changes) < HOW_MANY:
        draw = random.Random(number)
        number += 1
        text, keys = drawn_file(draw)
        if not keys:
            continue
        source = text.encode()
        words, change = drawn_edit(draw, keys)
        done = subprocess.run([PROPEDIT, *words], input=source, stdout=subprocess.PIPE, stderr=subprocess.PIPE, check=False)
        if done.returncode == 1:
            # A pair has the new key, or what was drawn reads as another key.
            refused += 1
            continue
        if done.returncode != 0:
            sys.exit(f"{words} of {source}: {done.stderr}")
        (old / str(len(changes))).write_bytes(source)
        (new / str(len(changes))).write_bytes(done.stdout)
        changes.append((words, change))
    told = {}
    for (words, change), number, before, after in zip(changes, range(HOW_MANY), loaded(old, HOW_MANY), loaded(new, HOW_MANY)):
        if after != change(before):
            sys.exit(f"{words} of {(old / str(number)).read_bytes()}: Java reads {after}, and not {change(before)}")
        told[words[0]] = told.get(words[0], 0) + 1
    print(f"{HOW_MANY} files:", ", ".join(f"{count} {what}" for what, count in sorted(told.items())), f"({refused} others refused)")


if len(sys.argv) != 2:
    sys.exit(__doc__)
PROPEDIT = sys.argv[1]
with tempfile.TemporaryDirectory() as ROOM:
    pathlib.Path(ROOM, "Load.java").write_text(LOAD)
    subprocess.run(["javac", "-d", ROOM, f"{ROOM}/Load.java"], check=True)
    main()
