#!/usr/bin/env bash
# Tests the library for programs in C, Python, Go and Rust, outside the gate. It needs cc, c++, python3 and, where it isn't given a
# folder into which build.sh has built, what build.sh needs. With valgrind it also looks for reads outside of the inputs.
#
#     bindings/test.sh [FOLDER]
#
# It prints what fails, and last how many checks passed and failed; its status is 0 if none failed.
set -u
[ $# -le 1 ] || { echo 'usage: test.sh [FOLDER]' >&2; exit 2; }
top=$(cd "$(dirname "${BASH_SOURCE[0]}")/.." && pwd)
work=$(mktemp -d)
trap 'rm -rf "$work"' EXIT
if [ $# = 1 ]; then
    built=$(cd "$1" && pwd) || exit 2
else
    built=$work/built
    "$top/bindings/build.sh" "$built" || exit 1
fi
version=$(sed -n 's/^const VERSION: &str = "\(.*\)";$/\1/p' "$top/crates/propedit_arguments/src/command_line.rt")
passed=0
failed=0
warnings='-Wall -Wextra -pedantic -Werror'
sanitizers='-g -O1 -fsanitize=address,undefined -fno-sanitize-recover=all'

result() {
    if [ "$1" = 0 ]; then
        passed=$((passed + 1))
    else
        failed=$((failed + 1))
        echo "$2: failed"
        cat "$work/log"
    fi
}

# The command succeeds.
works() {
    local name=$1
    shift
    "$@" >"$work/log" 2>&1
    result $? "$name"
}

# The command's last line counts what passed and failed.
counts() {
    local name=$1 status line
    shift
    "$@" >"$work/log" 2>&1
    status=$?
    line=$(tail -n 1 "$work/log")
    if [[ $line =~ ^([0-9]+)\ passed,\ ([0-9]+)\ failed$ ]]; then
        passed=$((passed + BASH_REMATCH[1]))
        failed=$((failed + BASH_REMATCH[2]))
        echo "$name: $line"
        [ "${BASH_REMATCH[2]}" != 0 ] || [ "$status" = 0 ]
        result $? "$name, status $status"
        [ "${BASH_REMATCH[2]}" = 0 ] || cat "$work/log"
    else
        result 1 "$name, status $status"
    fi
}

# The command ends with this status, and prints exactly this on standard output, and this on standard error.
gives() {
    local status=$1 output=$2 errors=$3 came
    shift 3
    "$@" >"$work/output" 2>"$work/errors"
    came=$?
    {
        [ "$came" = "$status" ] || echo "status $came, not $status"
        printf '%b' "$output" | diff - "$work/output"
        printf '%b' "$errors" | diff - "$work/errors"
    } >"$work/log"
    [ ! -s "$work/log" ]
    result $? "$*"
}

# The header, twice, with none of its functions called.
printf '#include "todrenval.h"\n#include "todrenval.h"\nint main(void) { return 0; }\n' >"$work/header.c"
for standard in c99 c11 c17; do
    works "the header in $standard" cc -std=$standard $warnings -I"$built" -c "$work/header.c" -o "$work/header.o"
    works "the example in $standard" cc -std=$standard $warnings -I"$built" -c "$top/bindings/c/example.c" -o "$work/header.o"
done
# Clang knows no useless casts.
casts='-Wold-style-cast -Wuseless-cast'
c++ -Werror $casts -x c++ -fsyntax-only /dev/null 2>/dev/null || casts=-Wold-style-cast
for standard in c++98 c++11 c++17 c++20; do
    works "the header in $standard" c++ -x c++ -std=$standard $warnings $casts -I"$built" -c "$work/header.c" -o "$work/header.o"
done

# Whether this processor will do, and the release of the library and of the header.
cat >"$work/about.c" <<'END'
#include "todrenval.h"
#include <stdio.h>
int main(void) {
    unsigned number = todrenval_release();
    printf("%u.%u.%u %s\n", number / 10000, number / 100 % 100, number % 100, TODRENVAL_RELEASE);
    return number == TODRENVAL_RELEASE_NUMBER && todrenval_runs_here() ? 0 : 1;
}
END
works 'the release and the processor, compiled' cc -std=c99 $warnings -I"$built" "$work/about.c" "$built/libtodrenval.a" -o "$work/about"
gives 0 "$version $version\n" '' "$work/about"

# Both forms of the library give the functions that the header declares, and no others, and it begins with a line for each.
grep -oE '^(int|uint32_t) todrenval_[a-z_]+' "$built/todrenval.h" | sed 's/.* //' | sort >"$work/declared"
for form in 'so -D' 'a -g'; do
    nm ${form#* } --defined-only "$built/libtodrenval.${form% *}" | sed -n 's/.* //p' | sort | diff "$work/declared" - >"$work/log"
    result $? "the names in libtodrenval.${form% *}"
done
sed -n '1,/^ \*\//s/^ \*     \(todrenval_[a-z_]*\)  .*/\1/p' "$built/todrenval.h" | sort >"$work/listed"
sed -n 's/^static inline [^(]*\(todrenval_[a-z_]*\)(.*/\1/p' "$built/todrenval.h" | sort - "$work/declared" >"$work/defined"
{ comm -13 "$work/listed" "$work/declared" && comm -23 "$work/listed" "$work/defined" && uniq -d "$work/listed"; } >"$work/log"
[ ! -s "$work/log" ]
result $? 'the list at the front of the header'

# Two such libraries in one program, which has a function by a name of the toolchain's runtime.
sed 's/.*/& other_&/' "$work/declared" >"$work/names"
cat >"$work/part.c" <<'END'
#include "todrenval.h"
int PART(void);
int PART(void) {
    struct todrenval_result it = todrenval_get_new("a=1", 3, TODRENVAL_UTF_8, 0, "a", 1);
    free(it.bytes);
    return it.status;
}
END
cat >"$work/main.c" <<'END'
int one(void), two(void);
void *rattle_alloc(void) { return 0; }
int main(void) { return one() + two(); }
END
for part in one two; do
    works "part $part" cc -I"$built" -DPART=$part -c "$work/part.c" -o "$work/$part.o"
done
works 'another library, its calls' objcopy --redefine-syms="$work/names" "$work/two.o"
works 'another library' objcopy --redefine-syms="$work/names" "$built/libtodrenval.a" "$work/other.a"
works 'two libraries, linked' cc "$work/main.c" "$work/one.o" "$work/two.o" -Wl,--whole-archive "$built/libtodrenval.a" "$work/other.a" \
    -Wl,--no-whole-archive -o "$work/two"
works 'two libraries' "$work/two"

# Every call, in C and in C++.
wraps=-Wl,--wrap=malloc,--wrap=realloc,--wrap=free
test=$top/bindings/c/test_calls.c
works 'the calls in C, compiled' cc -std=c99 $warnings $sanitizers $wraps -I"$built" "$test" "$built/libtodrenval.a" -o "$work/calls"
counts 'the calls in C' "$work/calls"
works 'the calls in C++, compiled' c++ -x c++ -std=c++11 $warnings $sanitizers $wraps -I"$built" "$test" -x none \
    "$built/libtodrenval.a" -o "$work/calls"
counts 'the calls in C++' "$work/calls"
if command -v valgrind >/dev/null; then
    works 'the calls, compiled' cc -std=c99 $warnings -g $wraps -I"$built" "$test" "$built/libtodrenval.a" -o "$work/calls"
    works 'the calls under valgrind' valgrind -q --error-exitcode=9 --leak-check=full "$work/calls"
else
    echo 'There is no valgrind, so reads outside of the inputs are not looked for.'
fi

# The example, with the archive and with the shared object.
cd "$work" || exit 2
example=$top/bindings/c/example.c
printf '# the web server\nport    = 80\n' >app.properties
printf 'a=1\n\n# C:\\users\n' >broken.properties
printf '' >empty.properties
printf 'a\\u0000b=1\\u00002\n' >zero.properties
for _ in $(seq 3000); do printf 'k\n'; done >long.properties
items='line 1, a comment: the web server\nline 2, port: 80\n'
for library in archive 'shared object'; do
    if [ "$library" = archive ]; then
        works 'the example, with the archive' cc -std=c99 $warnings $sanitizers -I"$built" "$example" "$built/libtodrenval.a" \
            -o example
    else
        works 'the example, with the shared object' cc -std=c99 $warnings $sanitizers -I"$built" "$example" -L"$built" \
            -ltodrenval -Wl,-rpath,"$built" -o example
    fi
    gives 0 "$items# the web server\nport    = 8080\n" '' ./example app.properties port 8080
    gives 0 "$items# the web server\nport    = 80\nhost = caf\xc3\xa9\n" '' ./example app.properties host $'caf\xc3\xa9'
    gives 0 'k=v\n' '' ./example empty.properties k v
    gives 0 'line 1, a\0000b: 1\00002\na\\u0000b=1\\u00002\nk=v\n' '' ./example zero.properties k v
    gives 1 'line 1, a: 1\n' 'broken.properties:3: Malformed \\uxxxx encoding: not hex.\n' ./example broken.properties k v
    gives 1 "$items" "app.properties: A text isn't UTF-8.\n" ./example app.properties $'\xff' v
    gives 1 '' 'none.properties: No such file or directory\n' ./example none.properties k v
    gives 2 '' 'usage: example FILE KEY VALUE\n' ./example app.properties
    works 'the example on many short lines' ./example long.properties k v
    [ "$(wc -l <log)" = 6000 ]
    result $? 'the example on many short lines'
done

# Python: the module beside the shared object, and without it.
unset TODRENVAL_LIBRARY
use='import todrenval; print(todrenval.loads(b"a=1"))'
gives 0 "{'a': '1'}\n" '' env PYTHONPATH="$built" PYTHONDONTWRITEBYTECODE=1 python3 -c "$use"
gives 0 "$version\n" '' env PYTHONPATH="$built" PYTHONDONTWRITEBYTECODE=1 \
    python3 -c 'import todrenval; print(todrenval.__version__)'
mkdir -p alone/todrenval
cp "$built"/todrenval/*.py alone/todrenval/
env PYTHONPATH=alone PYTHONDONTWRITEBYTECODE=1 python3 -c "$use" >log 2>&1
grep -q '^ImportError: .*TODRENVAL_LIBRARY says where it is' log
result $? 'the module without the shared object'
printf 'processor\t: 0\nflags\t\t: fpu sse2 pni ssse3 cx16 lahf_lm\n' >cpuinfo
env PYTHONPATH="$built" PYTHONDONTWRITEBYTECODE=1 \
    python3 -c 'import todrenval.processor as it; it.refuse_older("cpuinfo")' >log 2>&1
grep -q '^ImportError: .* needs x86-64-v2, and this processor lacks popcnt, sse4_1, sse4_2\.$' log
result $? 'the module on an older processor'
other="import platform; platform.machine = lambda: 'i686'; $use"
env PYTHONPATH="$built" PYTHONDONTWRITEBYTECODE=1 python3 -c "$other" >log 2>&1
grep -q '^ImportError: .* is for x86-64, and this machine is i686\.$' log
result $? 'the module on another processor'
gives 0 "{'a': '1'}\n" '' env TODRENVAL_LIBRARY="$built/libtodrenval.so.2" PYTHONPATH="$built" \
    PYTHONDONTWRITEBYTECODE=1 python3 -c "$other"
printf 'unsigned todrenval_version(void) { return %s; }\n' "$(sed -n 's/^#define TODRENVAL_VERSION //p' "$built/todrenval.h")" |
    cc -shared -fPIC -x c - -o older.so
env TODRENVAL_LIBRARY=./older.so PYTHONPATH=alone PYTHONDONTWRITEBYTECODE=1 python3 -c "$use" >log 2>&1
grep -q '^ImportError: ./older.so is older than this module' log
result $? 'the module with an older shared object'
# Each Python from 3.8 on that is on the path or that pyenv has, and of one version one.
ran=
for python in python3 python3.{8..15} "${PYENV_ROOT:-$HOME/.pyenv}"/versions/3.*/bin/python3; do
    version=$("$python" -c 'import sys; sys.version_info >= (3, 8) and print(sys.version.split()[0])' 2>/dev/null)
    [[ -n $version && " $ran " != *" $version "* ]] || continue
    ran="$ran $version"
    counts "the tables and the module, in Python $version" env TODRENVAL_LIBRARY="$built/libtodrenval.so.2" \
        PYTHONDONTWRITEBYTECODE=1 "$python" "$top/bindings/python/test_rows.py"
    grep -E '^ *[0-9]+ of ' "$work/log" >rows
done
cat rows
mypy=(mypy)
"${mypy[@]}" --version >/dev/null 2>&1 || mypy=(python3 -m mypy)
if "${mypy[@]}" --version >/dev/null 2>&1; then
    # The module, and as programs see its types, those of docs/PYTHON.md.
    works 'the types, by mypy' "${mypy[@]}" --strict --cache-dir=/dev/null "$top/bindings/python/todrenval"
    sed -n '/^```python$/,/^```$/p' "$top/docs/PYTHON.md" | awk '/^```python$/ { file = "page" ++n ".py"; next } /^```$/ { next } { print >file }'
    for program in page*.py; do
        works "the types of $program, by mypy" env MYPYPATH="$built" "${mypy[@]}" --strict --cache-dir=/dev/null "$program"
    done
else
    echo 'There is no mypy, so types are not checked.'
fi

# Go: the example over the archive, which is what docs/C.md says, and by more checks of what C gets.
if command -v go >/dev/null; then
    export CGO_CFLAGS=-I$built CGO_LDFLAGS=$built/libtodrenval.a GOCACHE=$work/go GOFLAGS= GOPROXY=off
    works 'the example in Go, by go vet' env -C "$top/bindings/go" go vet .
    [ -z "$(gofmt -l "$top/bindings/go")" ]
    result $? 'the layout of the example in Go'
    works 'the example in Go, compiled' env -C "$top/bindings/go" go build -o "$work/example-go" .
    for checks in cgocheck=1 cgocheck=2; do
        export GODEBUG=$checks
        gives 0 'line 2, port: 80\n# the web server\nport    = 8080\n' '' ./example-go app.properties port 8080
        gives 0 '=\n' '' ./example-go empty.properties '' ''
        gives 0 'line 1, a\0000b: 1\00002\na\\u0000b=1\\u00002\nk=v\n' '' ./example-go zero.properties k v
        gives 0 'line 1, a: 1\na=1\n\n# C:\\users\nk=v\n' '' ./example-go broken.properties k v
        gives 1 'line 2, port: 80\n' "A text isn't UTF-8.\n" ./example-go app.properties $'\xff' v
        printf 'a=1\nb=\\u12\n' >malformed.properties
        gives 1 'line 1, a: 1\n' 'line 2: Malformed \\uxxxx encoding: not enough digits.\n' ./example-go malformed.properties k v
    done
    unset GODEBUG
else
    echo 'There is no go, so its example is not tested.'
fi

# Rust: the crate over the archive, in a folder of its own for what cargo builds.
if command -v cargo >/dev/null; then
    export TODRENVAL_LIB_DIR=$built CARGO_TARGET_DIR=$work/target
    rust=$top/bindings/rust
    works 'the crate, its tests and examples' cargo test --offline --manifest-path "$rust/Cargo.toml"
    passed=$((passed + $(grep -c ' \.\.\. ok$' log)))
    ! cargo fmt --version >/dev/null 2>&1 || works 'the layout of the crate' cargo fmt --check --manifest-path "$rust/Cargo.toml"
    ! cargo clippy --version >/dev/null 2>&1 ||
        works 'the crate, by clippy' cargo clippy -q --offline --all-targets --manifest-path "$rust/Cargo.toml" -- -D warnings
    works 'the pages of the crate' env RUSTDOCFLAGS='-D warnings' cargo doc -q --offline --manifest-path "$rust/Cargo.toml"
    # Without the library it can be checked and documented, and what is linked says what is missing.
    alone() { env TODRENVAL_LIB_DIR="$work/none" CARGO_TARGET_DIR="$work/alone" cargo "$@" --offline --manifest-path "$rust/Cargo.toml"; }
    works 'cargo check without the library' alone check
    works 'cargo doc without the library' alone doc -q
    alone build >printed 2>&1
    [ $? != 0 ] && grep -q "there is no libtodrenval\.a in $work/none" printed && grep -q 'could not find native static library' printed
    result $? 'cargo build without the library'
    if command -v valgrind >/dev/null; then
        # The runner of tests itself leaves memory that is still reachable, or may be.
        for test in reading writing; do
            works "the crate under valgrind, $test" env TODRENVAL_FEW=1 valgrind -q --error-exitcode=9 --leak-check=full \
                --show-leak-kinds=definite --errors-for-leak-kinds=definite \
                "$(find target/debug/deps -name "$test-*" -type f -perm -u+x | head -n 1)" --test-threads 1
        done
    fi
    # The program of docs/RUST.md prints what the page says.
    block() { sed -n "/^\`\`\`$1\$/,/^\`\`\`\$/{//!p}" "$top/docs/RUST.md"; }
    mkdir -p prog/src
    printf '[package]\nname = "prog"\nversion = "0.1.0"\nedition = "2021"\n\n[dependencies]\ntodrenval = { path = "%s" }\n' "$rust" \
        >prog/Cargo.toml
    block rust >prog/src/main.rs
    cargo -q run --offline --manifest-path prog/Cargo.toml >printed 2>&1
    block stdout | diff - printed >log
    result $? 'the program of docs/RUST.md'
else
    echo 'There is no cargo, so the crate is not tested.'
fi

echo "$passed passed, $failed failed"
[ "$failed" = 0 ]
