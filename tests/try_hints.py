#!/usr/bin/env python3
"""Runs each hint that propedit gives in rows as a command, in the files of its row.

    tests/try_hints.py PROPEDIT [FILE ..]    without a FILE, all of crates/program_vectors/data

A hint is in quotes after "did you mean", "use" or "write", or is all that comes after "use:". A shell runs it. If it isn't a
command, it takes the place of the word that the message names; if it names no file, the row's -f or -i does. Names that
aren't files of the row are empty files. The hint has to be accepted, and edits have to make of the pairs of its file what
they say. Edits have all texts of the row, or "..", which isn't run, for those that they leave out. With "put quotes
around", the row has no unknown edit any more, and neither its key nor a word after the first is a setting or an edit.
"""
import collections
import pathlib
import re
import shlex
import subprocess
import sys
import tempfile

from try_rows import ROWS, make_files, rows_in

EDITS = ["set", "remove", "rename", "set-comment"]
COMMANDS = ["get", "list", "comment", "check", "diff", *EDITS, "merge", "convert", "help"]
HINT = re.compile(r"(?:did you mean|\buse|\bwrite|\bput quotes around) '([^']+)'")
OTHER = re.compile(r"; use: (.*)$")
NAME = re.compile(r"[a-zA-Z][\w.]*")
FILE_OPTIONS = ["-f", "-i", "--file", "--in-place"]
VALUE_OPTIONS = [*FILE_OPTIONS, "-e", "--encoding"]


def run(program, words, folder, data=b""):
    return subprocess.run([program, *words], cwd=folder, input=data, capture_output=True, check=False)


def named(words):
    """The option of a row that names a file, and the file."""
    for at, word in enumerate(words):
        if word in FILE_OPTIONS and at + 1 < len(words):
            return words[at : at + 2]
    return []


def command_of(hint, message, words):
    """The words of the command that a hint means."""
    said = [word for word in shlex.split(hint) if word != ".."]
    if said[0] not in COMMANDS or len(said) == 1 or said == ["list", "--json"]:
        return replaced(said, message, words)
    return said if named(said) else said[:1] + named(words) + said[1:]


def replaced(said, message, words):
    """The words of a row, with those of a hint for what the message names: words, or a part of one."""
    names = re.findall(r"'([^']+)'", message)
    for named_words in [[name] for name in names] + [name.split() for name in names]:
        for at in range(len(words)):
            end = at + len(named_words)
            if named_words and words[at:end] == named_words:
                # A hint with an option replaces the option too, and a command for an option replaces the row's command.
                is_command = said[0] in COMMANDS and words[at][0] == "-" and at and words[at - 1] in COMMANDS
                return words[: at - 1 if is_command or at and said[0] == words[at - 1] else at] + said + words[end:]
    name, at = next((name, at) for name in names for at, word in enumerate(words) if name in word)
    return [*words[:at], words[at].replace(name, said[0]), *words[at + 1 :]]


def pairs_of(program, folder, data):
    texts = run(program, ["list", "-v", "-z", "-f", "-"], folder, data).stdout.split(b"\0")
    return dict(zip(texts[0::2], texts[1::2]))


def without_options(words):
    while words and words[0].startswith("-") and words[0] != "--":
        words = words[2 if words[0] in VALUE_OPTIONS else 1 :]
    return words


def texts_of(words):
    return collections.Counter(re.findall(r"\w+", " ".join(words)))


def lost(hint, words):
    """The texts of a row's edits that a hint with edits leaves out."""
    said, edits = shlex.split(hint), [at for at, word in enumerate(words) if word in EDITS]
    if said[0] not in EDITS or len(said) == 1 or ".." in said or not edits:
        return []
    rest = without_options(words[edits[0] + 1 :])
    return [*(texts_of(rest) - texts_of(said))]


def edited(pairs, words):
    """The pairs after edits, whose options come first."""
    command, rest = words[0], without_options(words[1:])
    while command:
        rest = rest[1:] if rest[0] == "--" else rest
        key, text = (word.encode() for word in (rest + [""])[:2])
        if command == "set":
            pairs[key] = text
        elif command == "remove":
            pairs.pop(key, None)
        elif command == "rename":
            pairs[text] = pairs.pop(key)
        rest = rest[1 if command == "remove" else 2 :]
        command, rest = (rest[0], rest[1:]) if rest else (None, [])
    return pairs


def wrong_quotes(program, row, typed, text):
    """What is wrong with quotes around words of a row, if anything is."""
    ends = range(len(typed) + 1)
    at, end = next((at, end) for at in ends for end in ends if " ".join(typed[at:end]) == text)
    key = [] if typed[at - 2] == "--" else [typed[at - 1]]
    if any(word in EDITS or re.search("[=: ]", word) for word in key + typed[at + 1 : end]):
        return "with a setting or an edit"
    with tempfile.TemporaryDirectory() as name:
        make_files(pathlib.Path(name), row)
        done = run(program, [*typed[:at], text, *typed[end:]], name, row.input)
    return f"{done.stderr!r:.200}" if done.stderr.startswith(b"propedit: unknown edit") else None


def wrong_with(program, row, message, hint):
    """What is wrong with a hint, if anything is."""
    is_other = hint not in HINT.findall(message)
    typed = [word.decode() for word in row.words]
    if f"put quotes around '{hint}'" in message:
        return wrong_quotes(program, row, typed, hint)
    if lost(hint, typed):
        return f"without {', '.join(lost(hint, typed))}"
    words = shlex.split(hint) if is_other else command_of(hint, message, typed)
    option = named(words)
    path = {"PATH": f"{program.parent}:/bin:/usr/bin"}
    with tempfile.TemporaryDirectory() as name:
        folder = pathlib.Path(name)
        make_files(folder, row)
        for word in filter(NAME.fullmatch, words):
            (folder / word).exists() or (folder / word).touch()
        source = (folder / option[1]).read_bytes() if option and option[1] != "-" else row.input
        line = hint if is_other else f"propedit {shlex.join(words)}"
        done = subprocess.run(line, shell=True, cwd=folder, input=row.input, env=path, capture_output=True, check=False)
        # A command alone may lack what wasn't typed.
        if done.returncode not in (0, 1) and len(words) > 1:
            return f"status {done.returncode}: {done.stderr!r:.200}"
        if words[0] not in ("set", "remove", "rename") or done.returncode:
            return None
        result = (folder / option[1]).read_bytes() if option[:1] == ["-i"] else done.stdout
        found, wanted = pairs_of(program, folder, result), edited(pairs_of(program, folder, source), words)
        return None if found == wanted else f"{found}, and not {wanted}"


def hints_of(program, row):
    """The hints in what a row prints on standard error, each with its line."""
    with tempfile.TemporaryDirectory() as name:
        make_files(pathlib.Path(name), row)
        said = run(program, row.words, name, row.input).stderr.decode(errors="replace")
    for line in said.split("\n\n")[0].split("\n"):
        for hint in [*HINT.findall(line), *OTHER.findall(line)]:
            yield line, hint


def main():
    program = pathlib.Path(sys.argv[1]).resolve()
    passed = failed = 0
    for path in [pathlib.Path(name) for name in sys.argv[2:]] or sorted(ROWS.glob("*.txt")):
        for row in rows_in(path):
            for line, hint in hints_of(program, row):
                wrong = wrong_with(program, row, line, hint)
                passed, failed = passed + (wrong is None), failed + (wrong is not None)
                if wrong is not None:
                    print(f"{row.place}: {row.line}", line, f"{hint}: {wrong}", sep="\n    ")
    print(f"{passed} passed, {failed} failed")
    return min(failed, 1)


if __name__ == "__main__":
    sys.exit(main())
