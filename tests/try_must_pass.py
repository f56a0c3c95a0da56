#!/usr/bin/env python3
"""Proves the harmless changes of crates/*/must-pass.edits, each of which stands beside the must-fail edit of its name.

    tests/try_must_pass.py [CRATE ..]

An edit that the prover refuses says something of a contract only if it accepts a harmless change in the same place.
So a harmless change is a line `edit: NAME` and then, for each `old:` of that edit, a line `new:` with what is put there
instead. This makes all harmless changes of a crate on a copy of the repository, and proves the crate there: one check
a crate, over what earlier checks kept in out/. (In a fresh clone this proves the crates below it first.) Edits that
change the same line are made in different rounds, and a round that isn't proved is divided, to name the change. Exit
status 1 if a change is missing, has no edit or other lines than it, can't be made, or isn't proved.
"""
import os
import shutil
import subprocess
import sys
import tempfile

ROOT = os.path.dirname(os.path.dirname(os.path.realpath(__file__)))


def edits_of(crate):
    """Returns the must-fail edits of a crate: the texts that each changes, in order, with their files."""
    at, edits = f"{ROOT}/crates/{crate}/must-fail", {}
    for file in sorted(os.listdir(at)) if os.path.isdir(at) else []:
        name, kind = os.path.splitext(file)
        if kind == ".edit":
            edits[name] = texts_of(f"{at}/{file}")
    return edits


def texts_of(path):
    file, texts = "", []
    with open(path, encoding="utf-8") as edit:
        for line in edit.read().split("\n"):
            if line.startswith("file: "):
                file = line[len("file: "):].strip()
            elif line.startswith("old: "):
                texts.append((file, line[len("old: "):]))
    return texts


def twins_of(crate):
    """Returns the harmless changes of a crate: what each puts in the place of the texts of its edit, in order."""
    path, twins = f"{ROOT}/crates/{crate}/must-pass.edits", {}
    if not os.path.exists(path):
        return twins
    with open(path, encoding="utf-8") as lines:
        for line in lines.read().split("\n"):
            if line.startswith("edit: "):
                news = twins.setdefault(line[len("edit: "):].strip(), [])
            elif line.startswith("new:"):
                news.append(line[len("new: "):])
    return twins


def rounds_of(crate, changes):
    """Divides the changes so that in each round every text is found once in what the round has made before."""
    left = changes
    while left:
        texts, made, later = {}, {}, {}
        for name, change in left.items():
            changed = dict(texts)
            for file, old, new in change:
                if file not in changed:
                    with open(f"{ROOT}/crates/{crate}/{file}", encoding="utf-8") as source:
                        changed[file] = source.read()
                changed[file] = changed[file].replace(old, new) if changed[file].count(old) == 1 else None
                if changed[file] is None:
                    break
            if None in changed.values():
                later[name] = change
            else:
                texts, made[name] = changed, change
        if not made:
            print(f"{crate}: can't be made: {' '.join(later)}")
            return
        yield made, texts
        left = later


def below(crate):
    """Returns the crate and those of this repository that it stands on."""
    uses = {}
    with open(f"{ROOT}/crates.txt", encoding="utf-8") as lines:
        for line in lines:
            name, colon, others = line.split("#")[0].partition(":")
            if colon:
                uses[name.split()[0]] = others.split()
    found, left = set(), [crate]
    while left:
        name = left.pop()
        if name in uses and name not in found:
            found.add(name)
            left += uses[name]
    return found


def proved(crate, texts):
    """Proves the crate with these texts in the place of its own, over what is kept of earlier checks."""
    needed = below(crate)

    def unneeded(folder, inside):
        parts = os.path.relpath(folder, ROOT).split(os.sep)
        is_crate = len(parts) == 2 and parts[0] == "crates"
        return [it for it in inside if it == ".git" or is_crate and it == "out" and parts[1] not in needed]

    with tempfile.TemporaryDirectory(prefix="must-pass-") as room:
        copy = f"{room}/repository"
        shutil.copytree(ROOT, copy, ignore=unneeded, symlinks=True)
        for file, text in texts.items():
            with open(f"{copy}/crates/{crate}/{file}", "w", encoding="utf-8") as source:
                source.write(text)
        ran = subprocess.run(["rt", "check"], cwd=f"{copy}/crates/{crate}", capture_output=True, text=True)
        if ran.returncode:
            print("\n".join(it for it in ran.stdout.split("\n") if ": error" in it and not it.startswith("so far")))
        return ran.returncode == 0


def made_of(crate, changes):
    """Returns how many of these changes are proved, and names the others."""
    made = 0
    for part, texts in rounds_of(crate, changes):
        names = list(part)
        if proved(crate, texts):
            made += len(names)
        elif len(names) == 1:
            print(f"{crate}: NOT PROVED: {names[0]}")
        else:
            half = len(names) // 2
            made += made_of(crate, {name: part[name] for name in names[:half]})
            made += made_of(crate, {name: part[name] for name in names[half:]})
    return made


def changes_of(crate):
    """Returns the harmless changes that stand beside an edit, by name, and whether these are all."""
    edits, twins, changes = edits_of(crate), twins_of(crate), {}
    for name in sorted(set(edits) ^ set(twins)):
        print(f"{crate}/{name}: {'no harmless change' if name in edits else 'no must-fail edit'} of this name")
    for name in sorted(set(edits) & set(twins)):
        if len(edits[name]) == len(twins[name]) > 0:
            changes[name] = [(file, old, new) for (file, old), new in zip(edits[name], twins[name])]
        else:
            print(f"{crate}/{name}: {len(twins[name])} lines `new:` for {len(edits[name])} of the edit")
    return changes, len(changes) == len(set(edits) | set(twins))


def main(crates):
    good = True
    known = sorted(os.listdir(f"{ROOT}/crates"))
    for crate in crates or known:
        if crate not in known:
            print(f"{crate}: there is no such crate")
            good = False
            continue
        changes, all_given = changes_of(crate)
        good = good and all_given
        if changes:
            made = made_of(crate, changes)
            print(f"{crate}: {made} of {len(changes)} harmless changes are proved")
            good = good and made == len(changes)
    return 0 if good else 1


if __name__ == "__main__":
    sys.exit(main(sys.argv[1:]))
