#!/usr/bin/env python3
"""Runs the recipes that set the values of files in other formats, as the pages show them, and compares what is set.

    tests/try_formats.py PROPEDIT

It needs jq, and Debian's package yq for YAML, TOML and XML. It skips, and names, what isn't there.
"""
import os
import pathlib
import re
import shutil
import subprocess
import sys
import tempfile

DOCS = pathlib.Path(__file__).resolve().parents[1] / "docs"
HOSTS = b"server.hosts[0]=a\nserver.hosts[1]=b\nserver.ssl=false\n"
XML = '<!DOCTYPE properties SYSTEM "http://java.sun.com/dtd/properties.dtd">\n<properties><comment>c</comment>%s</properties>\n'
ENTRY = '<entry key="b">x</entry>'
# A tool, the name of its file in the recipe, a text of that file, whether it is well formed, and what is set.
ROWS = [
    ("yq", "server.yml", "server:\n  hosts: [a, b]\n  ssl: false\n", True, HOSTS),
    ("yq", "server.yml", "server: [\n", False, b""),
    ("tomlq", "server.yml", '[server]\nhosts = ["a", "b"]\nssl = false\n', True, HOSTS),
    ("jq", "server.yml", '{"server": {"hosts": ["a", "b"], "ssl": false}}', True, HOSTS),
    ("jq", "server.yml", '{"a": null, "b": [], "c": {"d": ""}}', True, b"a=null\nc.d=\n"),
    ("jq", "server.yml", '{"a": 1}{bad', False, b""),
    ("xq", "server.xml", XML % (ENTRY + '<entry key="e"/>'), True, b"b=x\ne=\n"),
    ("xq", "server.xml", XML % ENTRY, True, b"b=x\n"),
    ("xq", "server.xml", XML % "", True, b""),
]


def recipes():
    """The shell's text of the recipes: the two variables, and by the file's name the commands."""
    lines = [line[4:] for page in sorted(DOCS.glob("*.md")) for line in page.read_text().split("\n") if line.startswith("    ")]
    text = "\n".join(re.sub(r"^[$>] ?", "", line) for line in lines)
    variables = [re.search(rf"^{name}='[^']*'", text, re.M)[0] for name in ("values", "pairs")]
    commands = re.findall(r"^[a-z]+ (-j \S+ (server\.yml|server\.xml) > .*)$", text, re.M)
    return "\n".join(variables), {name: command for command, name in commands}


def tool_named(name):
    return next((tool for tool in (f"{name}-python", name) if shutil.which(tool)), None)


def main():
    propedit = pathlib.Path(sys.argv[1]).resolve()
    variables, commands = recipes()
    passed, failed, skipped = 0, 0, set()
    for name, file, text, is_well_formed, wanted in ROWS:
        tool = tool_named(name)
        if not tool:
            skipped.add(name)
            continue
        with tempfile.TemporaryDirectory() as room:
            os.symlink(propedit, pathlib.Path(room, "propedit"))
            pathlib.Path(room, file).write_text(text)
            edited = pathlib.Path(room, "server.properties")
            edited.touch()
            environment = os.environ | {"PATH": f"{room}:{os.environ['PATH']}"}
            command = f"{variables}\n{tool} {commands[file]}"
            done = subprocess.run(["bash", "-c", command], cwd=room, env=environment, capture_output=True, check=False)
            got = edited.read_bytes()
        if got == wanted and (done.returncode == 0) == is_well_formed:
            passed += 1
        else:
            failed += 1
            print(f"{tool}: {text!r}: {got!r}, and not {wanted!r}; status {done.returncode}", done.stderr.decode(), sep="\n    ")
    if skipped:
        print("skipped:", *sorted(skipped))
    print(f"{passed} passed, {failed} failed")
    return min(failed, 1)


if __name__ == "__main__":
    sys.exit(main())
