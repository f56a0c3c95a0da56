#!/usr/bin/env bash
# Does what docs/CALLING.md says under "In a repository of your own", command by command, in a new temporary folder. There it
# runs the programs of CALLING and of README, and the examples of the libraries' doc comments. It compares the examples of
# CALLING and of PROVING_CALLERS with their sources, and docs/API.md and the manual pages with theirs too.
#
#     tests/try_calling.sh            compiles and runs, and proves nothing: five minutes of one processor
#     tests/try_calling.sh --check    proves the two programs too, which takes a quarter of an hour or more
set -eu
top=$(cd "$(dirname "${BASH_SOURCE[0]}")/.." && pwd)

python3 - "$top" <<'PY'
import pathlib, re, sys
top = pathlib.Path(sys.argv[1])
pages = [(top / "docs" / name).read_text() for name in ("CALLING.md", "PROVING_CALLERS.md")]
# A section that begins with the name of a file shows that file, and may show pages of specs/.
examples, definitions = [], []
for section in re.split("^## ", "\n".join(pages), flags=re.M):
    file = re.match(r".*\n\n`(\w+\.rt)`\.", section)
    if file:
        examples.append((file[1], re.search("^```rust\n(.*?)^```", section, re.S | re.M)[1]))
    named = re.findall(r"`crates/calling/specs/(\w+\.antt)`.*?^```antt\n(.*?)^```", section, re.S | re.M)
    definitions += named
crate = top / "crates/calling"


def is_part(text, source):
    """Whether the source has the text, where a line `// ..` of the text stands for what is left out there."""
    at = 0
    for part in text.split("// ..\n"):
        at = source.find(part.strip(), at)
        if at < 0:
            return False
        at += len(part.strip())
    return True


wrong = [name for name, text in examples if not is_part(text, (crate / "src" / name).read_text())]
wrong += [name for name, text in definitions if text.strip() not in (crate / "specs" / name).read_text()]
# CALLING links to the files that it doesn't show.
named = set(re.findall(r"\(../crates/calling/src/(\w+\.rt)\)", "\n".join(pages)))
missing = {path.name for path in (crate / "src").glob("*.rt")} - {"lib.rt"} - {name for name, _ in examples} - named
wrong += sorted(name for name in named if not (crate / "src" / name).exists())
missing |= {path.name for path in (crate / "specs").glob("*.antt")} - {"Lib.antt"} - {name for name, _ in definitions}
if wrong or missing:
    sys.exit(f"try_calling.sh: not as their sources: {wrong}; neither shown nor named: {sorted(missing)}")
print(f"{len(examples)} examples and {len(definitions)} parts of pages of definitions are as their sources")
PY

"$top/tools/api.py" --check
"$top/tools/manual.py" --check

work=$(mktemp -d)
trap 'rm -rf "$work"' EXIT
mkdir "$work/todrenval"
(cd "$top" && git ls-files crates | tar -cf - -T -) | tar -xf - -C "$work/todrenval"

# The block of CALLING, or of another page, that has this word after its fence.
block() {
    python3 - "$top/$2" "$1" <<'PY'
import re, sys
text = open(sys.argv[1]).read()
found = re.search("^```" + re.escape(sys.argv[2]) + "\n(.*?)^```", text, re.S | re.M)
sys.stdout.write(found.group(1))
PY
}

# The commands, as they stand on the page.
commands=$(python3 - "$top/docs/CALLING.md" <<'PY'
import re, sys
section = open(sys.argv[1]).read().split("## In a repository of your own")[1].split("\n## ")[0]
section = re.sub("^```.*?^```$", "", section, flags=re.S | re.M)
print("\n".join(line[4:] for line in section.splitlines() if line.startswith("    ")))
PY
)
cd "$work"
before=$(printf '%s\n' "$commands" | sed '/^rt new/,$d')
after=$(printf '%s\n' "$commands" | sed -n '/^rt new/,/^echo/p')
eval "$before"
block crates docs/CALLING.md >crates.txt
eval "$after"
block 'rust main' docs/CALLING.md >crates/my_program/src/main.rt
block stdin docs/CALLING.md >crates/my_program/stdin
block stdout docs/CALLING.md >"$work/wanted"
mkdir -p crates/readme/src
block 'rust' README.md >crates/readme/src/main.rt
echo 'readme: counted_io java_properties' >>crates.txt
mkdir -p crates/value_of/src
block 'rust tool' docs/CALLING.md >crates/value_of/src/main.rt
echo 'value_of: counted_io java_properties' >>crates.txt

# A crate, its standard input, what it must print, and what else rt try takes.
try() {
    name=$1 input=$2 wanted=$3
    shift 3
    (cd "crates/$name" && rt try "$@" <"$input" >"$work/printed" 2>"$work/said") || { cat "$work/said"; exit 1; }
    diff "$wanted" "$work/printed"
    echo "$name prints what the page says"
}
try my_program "$PWD/crates/my_program/stdin" "$work/wanted"
# README says so before its program.
echo 8080 >"$work/port"
try readme /dev/null "$work/port"
try value_of /dev/null "$work/port" --data app.properties="$PWD/crates/my_program/stdin" -- app.properties port
mkdir -p crates/examples/src
"$top/tools/examples.py" >crates/examples/src/lib.rt
# The examples are of six crates more, which callers of the library don't need.
for name in single_lines properties_tables properties_checking properties_changing properties_tools propedit_arguments; do
    cp -r "../todrenval/crates/$name" crates/
    grep "^$name:" "$top/crates.txt" >>crates.txt
done
echo 'examples: byte_blocks counted_io properties_text single_lines java_properties properties_tables properties_checking properties_changing properties_tools propedit_arguments' >>crates.txt
(cd crates/examples && rt try --test >"$work/said" 2>&1) || { cat "$work/said"; exit 1; }
grep 'test result' "$work/said"
if [ "${1:-}" = --check ]; then
    for name in my_program readme; do
        (cd "crates/$name" && rt check 2>&1 | tail -1)
    done
fi
