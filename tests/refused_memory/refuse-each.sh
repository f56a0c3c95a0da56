#!/bin/sh
# Refuses each allocation of each call, one in each run, and lists the calls that don't recover.
#
#     tests/refused_memory/refuse-each.sh
#
# The program in src/ makes the calls. It is no crate of the gate, where no memory can be refused: this script builds
# it in a copy of the repository, once, and proves nothing. `rt try --fail-alloc MOST` refuses allocation number MOST
# of a run. A run makes one call, after so many allocations of its own that allocation MOST is the one of the call that
# is wanted.
#
# `calls` names the calls, and `allocations` says how many allocations each has. A call with more gets more runs, and
# then `allocations` is rewritten.
set -u
MOST=512
here=$(cd "$(dirname "$0")" && pwd) || exit 2
work=$(mktemp -d) || exit 2
trap 'rm -rf "$work"' EXIT

# The copy: the library without what was built of it, and the program as a crate over it.
crate=$work/copy/crates/refused_memory
mkdir -p "$crate/src"
(cd "$here/../.." && tar cf - --exclude=out --exclude='must-*' crates crates.txt HANDLES) | (cd "$work/copy" && tar xf -)
# There the exports for C are a crate that others can use.
sed -i 's/^properties_c staticlib:/properties_c:/' "$work/copy/crates.txt"
echo 'refused_memory: counted_io properties_text properties_lines single_lines java_properties properties_tools propedit_arguments properties_c' \
    >>"$work/copy/crates.txt"
for file in "$here"/src/*.rt.txt; do
    cp "$file" "$crate/src/$(basename "$file" .txt)"
done
cd "$crate" || exit 2

# Each line of `todo` is the number of a call, and the first and the last of its allocations that are to be refused.
cp "$here/calls" "$work/names"
touch "$work/came" "$work/ended"
awk -v file="$here/allocations" '
    BEGIN { while ((getline line < file) > 0) { count = line + 0; sub(/^[0-9]+ /, "", line); allocations[line] = count } }
    { print FNR, 1, ($0 in allocations ? allocations[$0] : 15) + 1 }' "$work/names" >"$work/todo"

while [ -s "$work/todo" ]; do
    rm -rf "$work/cases"
    mkdir "$work/cases"
    awk -v most="$MOST" -v folder="$work/cases" '{
        for (allocation = $2; allocation <= $3; allocation++) {
            name = folder "/" $1 "." allocation
            print most - allocation, $1 >name
            close(name)
        }
    }' "$work/todo"
    # The compiled run checks each access, as the interpreter would, whose steps don't suffice.
    rt try --steps 1 --fail-alloc "$MOST" --cases "$work/cases" >"$work/out" 2>"$work/err"
    cases=$(ls "$work/cases" | wc -l)
    if [ "$(grep -c '^case=' "$work/err")" -ne "$cases" ]; then
        cat "$work/err"
        echo "not all of $cases runs came"
        exit 1
    fi
    cat "$work/out" >>"$work/came"
    grep '^case=' "$work/err" >>"$work/ended"
    # A call whose last allocation so far was refused may have more.
    awk -v most="$MOST" 'FNR == 1 { file++ }
        file == 1 { last[$1] = $3; next }
        /^== / { split($2, at, "."); next }
        at[2] == last[at[1]] && !/: ok$/ && at[2] + 1 < most {
            print at[1], at[2] + 1, (at[2] + 16 < most ? at[2] + 16 : most - 1)
        }' "$work/todo" "$work/out" >"$work/more"
    mv "$work/more" "$work/todo"
done

# Each run prints one line, the name of its call and a word: out of memory for each of its allocations, and then ok.
# The two that write maps get over one refused allocation: `collect` of std asks for room for all entries at once, and
# if that is refused, for as much as the next entry needs.
awk -v counts="$work/allocations" '
    function tell(text) { print text; wrong++ }
    BEGIN { spared["write, a map"] = 1; spared["write_sorted"] = 1 }
    FNR == 1 { file++ }
    file == 1 { names[FNR] = $0; calls = FNR; next }
    file == 2 {
        if ($0 !~ / run=ended status=0 /) { tell($0) }
        next
    }
    /^== / { split($2, at, "."); runs++; next }
    { lines++ }
    $0 == names[at[1]] ": out of memory" {
        refused[at[1], at[2]] = 1
        if (at[2] + 0 > allocations[at[1]] + 0) { allocations[at[1]] = at[2] + 0 }
        next
    }
    $0 != names[at[1]] ": ok" { tell("allocation " at[2] ": " $0); known[at[1], at[2]] = 1 }
    END {
        for (call = 1; call <= calls; call++) {
            count = allocations[call] + 0
            if (count == 0) { tell(names[call] ": no allocation was refused") }
            for (allocation = 1; allocation <= count; allocation++) {
                if ((call, allocation) in refused) { total++ }
                else if ((call, allocation) in known) { continue }
                else if (spared[names[call]] > 0) { spared[names[call]]-- }
                else { tell("allocation " allocation ": " names[call] ": ok, though refused") }
            }
            print count, names[call] >counts
        }
        if (lines != runs) { tell(lines + 0 " lines of " runs + 0 " runs") }
        print total + 0 " allocations of " calls + 0 " calls refused: " wrong + 0 " wrong"
        exit wrong > 0
    }' "$work/names" "$work/ended" "$work/came"
status=$?
cmp -s "$work/allocations" "$here/allocations" || { cp "$work/allocations" "$here/allocations"; echo "allocations is rewritten"; }
exit $status
