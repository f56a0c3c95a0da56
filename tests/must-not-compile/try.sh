#!/bin/sh
# Adds each of these callers to a copy of the repository, and looks for the error of the borrow checker that its second
# line names. They are named .txt, so that nothing takes them for code.
#
#     tests/must-not-compile/try.sh
set -u
cd "$(dirname "$0")/../.." || exit 2
status=0
for caller in tests/must-not-compile/*.txt; do
    error=$(sed -n 's|^// error: ||p' "$caller")
    copy=$(mktemp -d)
    tar --exclude=.git -cf - . | tar -xf - -C "$copy"
    cat "$caller" >>"$copy/crates/java_properties/src/iter.rt"
    if (cd "$copy/crates/java_properties" && rt check 2>&1) | grep -q "$error"; then
        echo "$caller: refused, $error"
    else
        echo "$caller: NOT REFUSED"
        status=1
    fi
    rm -rf "$copy"
done
exit $status
