#!/usr/bin/env python3
"""Runs what docs/RECIPES.md shows for Git, in repositories of its own: the hook, and the setting of textconv.

    tests/try_git.py PROPEDIT
"""
import os
import pathlib
import re
import subprocess
import sys
import tempfile

PAGE = pathlib.Path(__file__).resolve().parent.parent / "docs/RECIPES.md"
GOOD, BROKEN = b"a = 1\n", b"a = \\u12\n"


class Repository:
    def __init__(self, folder, program):
        self.folder = folder
        (folder / "bin").mkdir()
        (folder / "bin/propedit").symlink_to(program)
        (folder / "work").mkdir()
        names = {"AUTHOR_NAME": "A", "AUTHOR_EMAIL": "a@example.org", "COMMITTER_NAME": "A", "COMMITTER_EMAIL": "a@example.org"}
        self.environment = {
            "PATH": f"{folder}/bin:{os.environ['PATH']}", "HOME": str(folder), "GIT_CONFIG_NOSYSTEM": "1", "TMPDIR": str(folder),
            **{f"GIT_{name}": value for name, value in names.items()},
        }
        self.run("git init -q && echo '*.properties diff=properties' > .gitattributes && git add . && git commit -qm First")

    def run(self, command):
        """The status, and all that it prints."""
        run = subprocess.run(["sh", "-c", command], cwd=self.folder / "work", env=self.environment, capture_output=True, check=False)
        return run.returncode, (run.stdout + run.stderr).decode()

    def write(self, name, data):
        file = self.folder / "work" / name
        file.parent.mkdir(parents=True, exist_ok=True)
        file.write_bytes(data)


def commits(repository):
    """What is committed, each file first staged and then as the working tree has it, and whether the hook lets it."""
    cases = [("staged broken", BROKEN, GOOD, False), ("staged good", GOOD, BROKEN, True), ("both broken", BROKEN, BROKEN, False)]
    for name in ("x.properties", "a folder/y é.properties"):
        for title, staged, kept, is_let in cases:
            repository.write(name, staged + b"# %d\n" % len(title))
            repository.run("git add .")
            repository.write(name, kept)
            status, said = repository.run("git commit -qm x")
            yield f"{name}, {title}", (status == 0) == is_let and (is_let or f"{name}:1: Malformed" in said), said
            repository.run("git reset -q --hard")
    repository.write("other", BROKEN)
    yield "another file", repository.run("git add . && git commit -qm x")[0] == 0, ""
    yield "a removed file", repository.run("git rm -q x.properties && git commit -qm x")[0] == 0, ""


def compared(repository):
    """What git diff prints with the setting of the page."""
    repository.write("x.properties", GOOD + b"b = 2\n")
    repository.run("git add . && git commit -qnm x")
    repository.write("x.properties", b"# layout\nb : 3\na=1\n")
    status, said = repository.run("git diff -U0")
    lines = [line for line in said.splitlines() if re.match(r"[-+](?![-+])", line)]
    yield "a value", (status, lines) == (0, ["+b=3", "-b=2"]), said
    repository.write("x.properties", b"# no key\n")
    status, said = repository.run("git diff -U0")
    yield "a file without keys", status == 0 and "-b=2" in said and "no key" not in said, said
    repository.write("x.properties", BROKEN)
    status, said = repository.run("git diff -U0")
    yield "a broken file", status != 0 and "Malformed" in said, said
    status, said = repository.run("git diff -U0 --no-textconv")
    yield "the lines of a broken file", status == 0 and "+a = \\u12" in said, said


def main():
    page = PAGE.read_text()
    program = pathlib.Path(sys.argv[1]).resolve()
    hook = re.search(r"^    \$ cat \.git/hooks/pre-commit\n((?:    [^$\n].*\n)+)", page, re.M)[1]
    setting = re.search(r"^    \$ (git config diff\.properties\.textconv .*)$", page, re.M)[1]
    faults, count = [], 0
    for cases in (commits, compared):
        with tempfile.TemporaryDirectory() as folder:
            repository = Repository(pathlib.Path(folder), program)
            repository.run(setting)
            if cases == commits:
                repository.write(".git/hooks/pre-commit", re.sub("^    ", "", hook, flags=re.M).encode())
                (repository.folder / "work/.git/hooks/pre-commit").chmod(0o755)
            rows = list(cases(repository))
            left = sorted(path.name for path in repository.folder.iterdir())
            rows.append(("what is left", left == ["bin", "work"], str(left)))
        faults += [f"{cases.__name__}: {title}: {said}" for title, holds, said in rows if not holds]
        count += len(rows)
    print("\n".join([*faults, f"{count - len(faults)} of {count} cases of Git are as the page says"]))
    return 1 if faults else 0


if __name__ == "__main__":
    sys.exit(main())
