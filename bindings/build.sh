#!/usr/bin/env bash
# Makes the library for programs in C and in Python in a folder, which is made if it isn't there:
#
#     (cd crates/properties_c && rt lib)
#     bindings/build.sh FOLDER [ARCHIVE MEMORY]
#
# FOLDER then has libtodrenval.a with todrenval.h, the shared object libtodrenval.so.2 with libtodrenval.so, which names it for
# the linker, and the Python package todrenval. They are made of the archive that `rt lib` has proved, and of the toolchain's
# few lines of C that call malloc. The header and the package name the version of propedit. It needs cc and binutils, and rt
# if these two archives aren't named.
set -eu
[ $# = 1 ] || [ $# = 3 ] || { echo 'usage: build.sh FOLDER [ARCHIVE MEMORY]' >&2; exit 2; }
top=$(cd "$(dirname "${BASH_SOURCE[0]}")/.." && pwd)
proved=$(realpath -m "${2:-$top/crates/properties_c/out/libproperties_c.a}")
for tool in cc ar ld objcopy $([ $# = 3 ] || echo rt); do
    command -v "$tool" >/dev/null || { echo "build.sh: there is no $tool on the path" >&2; exit 1; }
done
memory=$(realpath -m "${3:-$(dirname "$(rt doc)")/c/liblibc_c.a}")
for file in "$proved" "$memory"; do
    [ -f "$file" ] && continue
    echo "build.sh: there is no $file" >&2
    [ "$file" = "$memory" ] || echo 'build.sh: prove and build it by (cd crates/properties_c && rt lib)' >&2
    exit 1
done
mkdir -p "$1"
folder=$(cd "$1" && pwd)
work=$(mktemp -d)
trap 'rm -rf "$work"' EXIT

# One archive of both, in which only the functions of the header can be seen: so a program can be linked with another library
# that was made by the toolchain.
ld -r -o "$work/todrenval.o" --whole-archive "$proved" "$memory"
objcopy --wildcard --keep-global-symbol='todrenval_*' "$work/todrenval.o"
rm -f "$folder/libtodrenval.a"
ar rcsD "$folder/libtodrenval.a" "$work/todrenval.o"

# A shared object, of which only the functions of the header can be called. The number in its name rises with
# TODRENVAL_VERSION of the header, so that a program finds no object that it wasn't linked with.
shared=libtodrenval.so.2
printf '{ global: todrenval_*; local: *; };\n' >"$work/exports"
cc -shared -o "$folder/$shared" -Wl,-soname,"$shared" -Wl,--version-script="$work/exports" \
    -Wl,--gc-sections -Wl,-z,relro,-z,now,-z,noexecstack -Wl,-z,defs \
    -Wl,--whole-archive "$folder/libtodrenval.a" -Wl,--no-whole-archive
ln -sf "$shared" "$folder/libtodrenval.so"

cp "$top/bindings/c/todrenval.h" "$folder/"
mkdir -p "$folder/todrenval"
cp "$top"/bindings/python/todrenval/*.py "$top/bindings/python/todrenval/py.typed" "$folder/todrenval/"
version=$(sed -n 's/^const VERSION: &str = "\(.*\)";$/\1/p' "$top/crates/propedit_arguments/src/command_line.rt")
[ -n "$version" ] || { echo 'build.sh: crates/propedit_arguments names no version' >&2; exit 1; }
number=$(printf '%d%02d%02d' ${version//./ })
sed -i "s/^#define TODRENVAL_RELEASE .*/#define TODRENVAL_RELEASE \"$version\"/
    s/^#define TODRENVAL_RELEASE_NUMBER .*/#define TODRENVAL_RELEASE_NUMBER $number/" "$folder/todrenval.h"
sed -i "s/^__version__ = .*/__version__ = \"$version\"/" "$folder/todrenval/__init__.py"
ln -sf "../$shared" "$folder/todrenval/$shared"
