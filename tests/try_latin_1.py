#!/usr/bin/env python3
"""Compares propedit, with the encoding iso-8859-1, with Properties.load(InputStream) of Java.

    tests/try_latin_1.py PROPEDIT

It takes `java` and `javac`. Of all 256 bytes, propedit reads those as Java does that its `check` doesn't report. What it
puts in or converts, of 2,000 characters, Java reads as it was meant.
"""
import pathlib
import random
import subprocess
import sys
import tempfile

LOAD = """
import java.io.*;
import java.nio.file.*;
import java.util.*;

public class Load {
    public static void main(String[] paths) throws IOException {
        for (String path : paths) {
            Properties pairs = new Properties();
            try (InputStream input = Files.newInputStream(Paths.get(path))) {
                pairs.load(input);
            }
            System.out.println(pairs.size());
            for (String key : new TreeMap<Object, Object>(pairs).keySet().toArray(new String[0])) {
                System.out.println(hex(key) + " " + hex(pairs.getProperty(key)));
            }
        }
    }

    static String hex(String text) {
        StringBuilder digits = new StringBuilder("x");
        for (char unit : text.toCharArray()) {
            digits.append(String.format("%04x", (int) unit));
        }
        return digits.toString();
    }
}
"""
# What Java reads otherwise than windows-1252 has it.
OTHERWISE = [byte for byte in range(0x80, 0xA0) if byte not in (0x81, 0x8D, 0x8F, 0x90, 0x9D)]
HOW_MANY = 2000


def propedit(*words, data=b""):
    """What propedit prints, and its status."""
    done = subprocess.run([PROPEDIT, *words], input=data, stdout=subprocess.PIPE)
    return done.stdout, done.returncode


def loaded(*paths):
    """The pairs that Java reads in each file."""
    lines = iter(subprocess.run(["java", "-cp", ROOM, "Load", *paths], stdout=subprocess.PIPE, check=True).stdout.decode().split("\n"))
    for _ in paths:
        rows = [next(lines).split(" ") for _ in range(int(next(lines)))]
        yield {text(key): text(value) for key, value in rows}


def text(digits):
    return bytes.fromhex(digits[1:]).decode("utf-16-be", "surrogatepass")


def expect(what, got, wanted):
    if got != wanted:
        sys.exit(f"{what}: {got!r}, and not {wanted!r}")


def characters():
    """Those of the first two blocks, of all that windows-1252 has, at the ends of ranges, and at random."""
    some = set(range(1, 0x300)) | {ord(bytes([byte]).decode("cp1252")) for byte in OTHERWISE}
    some |= {0xD7FF, 0xE000, 0xFEFF, 0xFFFD, 0xFFFE, 0xFFFF, 0x10000, 0x10FFFF}
    draw = random.Random(1252)
    while len(some) < HOW_MANY:
        code = draw.choice([draw.randrange(0x10000), draw.randrange(0x110000)])
        if not 0xD800 <= code < 0xE000:
            some.add(max(code, 1))
    return [chr(code) for code in sorted(some)]


def try_bytes():
    file = f"{ROOM}/bytes.properties"
    pathlib.Path(file).write_bytes(b"".join(b"k%02x=a%cb%02x\n" % (byte, byte, byte) for byte in range(256)))
    keys = [f"k{byte:02x}" for byte in range(256)]
    java = next(loaded(file))
    ours = propedit("-e", "iso-8859-1", "get", "-f", file, *keys)[0].decode().split("\n")
    otherwise = [byte for byte in range(256) if java[keys[byte]] != ours[byte]]
    expect("the bytes that Java reads otherwise", otherwise, OTHERWISE)
    report = propedit("-e", "iso-8859-1", "check", file)[0].decode().split("\n")
    # The bytes 0A and 0D give two lines, so those of later bytes are two more.
    lines = [
        f"{file}:{byte + 3}: byte {byte:02X} is '\\u{ord(ours[byte][1]):04x}' in windows-1252 and U+{ord(java[keys[byte]][1]):04X} to Java"
        for byte in otherwise
    ]
    expect("what check reports", report, lines + [""])


def try_characters():
    some = characters()
    pairs = {f"k{n}": f"a{c}b" for n, c in enumerate(some)}
    edited, converted, readable = (f"{ROOM}/{name}.properties" for name in ("edited", "converted", "readable"))
    pathlib.Path(edited).write_bytes(b"")
    words = [word for pair in pairs.items() for word in ("set", *pair)]
    for at in range(0, len(words), 900):
        status = propedit("-e", "iso-8859-1", *words[at : at + 1], "-i", edited, *words[at + 1 : at + 900])[1]
        expect("the status of set", status, 0)
    utf_8 = "".join(f"{key}={escaped(value)}\n" for key, value in pairs.items()).encode()
    ascii_only = "".join(f"{key}={spelt(value)}\n" for key, value in pairs.items()).encode()
    for path, words, source in (converted, [], utf_8), (readable, ["-r"], ascii_only):
        result, status = propedit("convert", *words, "iso-8859-1", data=source)
        expect("the status of convert", status, 0)
        pathlib.Path(path).write_bytes(result)
    for path, java in zip((edited, converted, readable), loaded(edited, converted, readable)):
        expect(f"what Java reads in {path}", {key: value for key, value in java.items() if pairs[key] != value}, {})
        expect(f"the number of pairs in {path}", len(java), len(pairs))
        expect(f"the check of {path}", propedit("-e", "iso-8859-1", "check", path), (b"", 0))


def escaped(value):
    """A value as a UTF-8 file has it."""
    return value.replace("\\", "\\\\").replace("\n", "\\n").replace("\r", "\\r")


def spelt(value):
    """A value in escapes."""
    units = value.encode("utf-16-be")
    return "".join("\\u" + units[at : at + 2].hex() for at in range(0, len(units), 2))


if len(sys.argv) != 2:
    sys.exit(__doc__)
PROPEDIT = str(pathlib.Path(sys.argv[1]).resolve())
with tempfile.TemporaryDirectory() as ROOM:
    (pathlib.Path(ROOM) / "Load.java").write_text(LOAD)
    subprocess.run(["javac", "-d", ROOM, f"{ROOM}/Load.java"], check=True)
    try_bytes()
    try_characters()
print(f"256 bytes, {len(OTHERWISE)} of which Java reads otherwise, and {HOW_MANY} characters are as they should be")
