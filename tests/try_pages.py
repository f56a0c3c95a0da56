#!/usr/bin/env python3
"""Runs the commands that README and the pages of docs/ show, and compares what they print. Follows their links too.

    tests/try_pages.py PROPEDIT PROPFILTER [PAGE ..]    the built programs, such as crates/propedit/out/propedit, which rt run makes

A line of an indented block that begins with "$ " is a command, and lines after it that begin with "> " continue it. The lines
after that, up to the next command or to the end of the block, are all that it prints. Blocks without a command aren't run.

The commands of a page run in order, in one shell and one directory: a Git repository without files. "$ cat FILE" makes a FILE
that isn't there, since it shows what a reader is to have, and adds it to the index. A command with "rt" runs at the root of this
repository, and what it prints on standard error isn't compared. One that runs java is skipped if there is none.
"""
import os
import pathlib
import re
import shutil
import subprocess
import sys
import tempfile

TOP = pathlib.Path(__file__).resolve().parent.parent
# Here a command finds its text and what the page shows below it, and leaves what it printed.
STEP = """
file=$(sed -n 's/^cat \\([^ |<>]*\\)$/\\1/p' {at}.command)
if [ -n "$file" ] && [ ! -e "$file" ]; then
    mkdir -p "$(dirname "$file")"
    cp {at}.shown "$file"
    [[ $file = .git* ]] || git add -f "$file"
fi
(exit "$status")
. {at}.command > {at}.printed 2>&1
status=$?
"""
RATTLE_STEP = """
(cd '{top}' && . {at}.command) > {at}.printed 2> {at}.said
status=$?
"""
START = """
git init -q . && git commit -q --allow-empty -m start
status=0
"""
LIMIT = 600


def commands(text):
    """(line number, command, what is shown below it) of each command of a page."""
    found, fenced = [], False
    lines = text.split("\n")
    for number, line in enumerate(lines, 1):
        if line.startswith("```"):
            fenced = not fenced
        if fenced or not line.startswith("    "):
            # A block may have empty lines in it.
            inside = not fenced and not line and number < len(lines) and lines[number].startswith("    ")
            if found and found[-1] and inside:
                found[-1][2].append("")
            else:
                found.append(None)
        elif line.startswith("    $ "):
            found.append([number, line[6:], []])
        elif found and found[-1]:
            if line.startswith("    > ") and not found[-1][2]:
                found[-1][1] += "\n" + line[6:]
            else:
                found[-1][2].append(line[4:])
    return [command for command in found if command]


def environment(kept):
    """What the commands see: the programs first on the path, and nothing of the user's settings."""
    kept_names = {name: text for name, text in os.environ.items() if not name.startswith(("GIT_", "LC_", "LANG"))}
    person = {f"GIT_{who}_{what}": "a@example.org" for who in ("AUTHOR", "COMMITTER") for what in ("NAME", "EMAIL")}
    path = f"{kept}:{os.environ['PATH']}"
    return kept_names | person | {"PATH": path, "HOME": str(kept), "LC_ALL": "C.UTF-8", "GIT_CONFIG_NOSYSTEM": "1", "GIT_PAGER": "cat"}


def anchors(page):
    """What a link to a heading of the page may end in: its words in lowercase, joined by dashes."""
    heads = re.findall(r"^#+ (.*)", re.sub(r"^```.*?^```", "", page.read_text(), flags=re.M | re.S), re.M)
    return {re.sub(r"[^\w\- ]", "", head.lower()).replace(" ", "-") for head in heads}


def broken_links(page):
    """The links of a page, to files and headings of this repository, that lead nowhere."""
    for link in re.findall(r"\]\(([^)\s]+)\)", " ".join(page.read_text().split())):
        name, _, heading = link.partition("#")
        target = page.parent / name if name else page
        if "://" not in link and (not target.exists() or (heading and heading not in anchors(target))):
            yield link


def run(page, programs):
    """Prints what differs, and returns whether nothing does."""
    broken = list(broken_links(page))
    for link in broken:
        print(f"{page.relative_to(TOP)}: the link {link} leads nowhere")
    steps = [step for step in commands(page.read_text()) if "| java " not in step[1] or shutil.which("java")]
    if not steps:
        return not broken
    with tempfile.TemporaryDirectory() as folder:
        room, kept = pathlib.Path(folder, "room"), pathlib.Path(folder, "kept")
        room.mkdir()
        kept.mkdir()
        script = START
        for name, program in programs.items():
            (kept / name).symlink_to(program)
        for number, command, shown in steps:
            at = kept / str(number)
            at.with_suffix(".command").write_text(command + "\n")
            at.with_suffix(".shown").write_text("".join(line + "\n" for line in shown))
            step = RATTLE_STEP if re.search(r"\brt\b", command) else STEP
            script += step.format(at=at, top=TOP)
        try:
            subprocess.run(["bash", "-c", script], cwd=room, env=environment(kept), stdin=subprocess.DEVNULL, timeout=LIMIT, check=False)
        except subprocess.TimeoutExpired:
            print(f"{page.relative_to(TOP)}: stopped after {LIMIT} seconds")
        wrong = 0
        for number, command, shown in steps:
            printed = kept / f"{number}.printed"
            text = printed.read_text() if printed.exists() else "It was not run.\n"
            if text != "".join(line + "\n" for line in shown):
                wrong += 1
                print(f"{page.relative_to(TOP)}:{number}: $ {command}\nprints\n{text}", end="")
                said = kept / f"{number}.said"
                print(said.read_text() if said.exists() else "", end="")
    print(f"{page.relative_to(TOP)}: {len(steps) - wrong} of {len(steps)} commands print what the page shows")
    return wrong == 0 and not broken


def main():
    words = [pathlib.Path(word).resolve() for word in sys.argv[1:]]
    if len(words) < 2:
        sys.exit("usage: tests/try_pages.py PROPEDIT PROPFILTER [PAGE ..]")
    programs = dict(zip(("propedit", "propfilter"), words))
    for program in programs.values():
        if not program.is_file():
            sys.exit(f"tests/try_pages.py: no program {program}")
    pages = words[2:] or [*sorted(TOP.glob("*.md")), *sorted(TOP.glob("docs/*.md")), *sorted(TOP.glob("bench/*.md"))]
    results = [run(page, programs) for page in pages]
    return 0 if all(results) else 1


if __name__ == "__main__":
    sys.exit(main())
