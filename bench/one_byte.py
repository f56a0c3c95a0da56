#!/usr/bin/env python3
"""Counts the instructions of propfilter where each read gives one byte: one_byte.py PROGRAM, as crates/propfilter/out/propfilter.

Each input is one logical line, or one line ending after another, of two sizes. The number for a byte must not grow with the size.
It needs valgrind.
"""
import array
import fcntl
import os
import re
import subprocess
import sys
import termios

INPUTS = {
    "one line": ("windows-1252", lambda size: b"k=" + b"a" * size),
    "CR": ("windows-1252", lambda size: b"\r" * size),
    "backslashes": ("windows-1252", lambda size: b"\\" * size),
    "joins": ("windows-1252", lambda size: b"a\\\n" * (size // 3)),
    "blanks": ("windows-1252", lambda size: b" " * size),
    "malformed UTF-8": ("utf-8", lambda size: b"\xe3" * size),
    "one line of UTF-16LE": ("utf-16le", lambda size: b"a\0" * (size // 2)),
}


def instructions(program, encoding, text):
    command = ["valgrind", "--tool=callgrind", "--callgrind-out-file=/dev/null", program, encoding]
    child = subprocess.Popen(command, stdin=subprocess.PIPE, stdout=subprocess.DEVNULL, stderr=subprocess.PIPE, bufsize=0)
    pipe = child.stdin.fileno()
    for byte in text:
        os.write(pipe, bytes([byte]))
        waiting = array.array("i", [1])
        while waiting[0] != 0:
            fcntl.ioctl(pipe, termios.FIONREAD, waiting)
    child.stdin.close()
    return int(re.search(r"Collected : (\d+)", child.stderr.read().decode())[1])


for name, (encoding, make) in INPUTS.items():
    for size in (6000, 12000):
        text = make(size)
        print(f"{name}, {size} bytes: {instructions(sys.argv[1], encoding, text) / len(text):.0f} instructions a byte", flush=True)
