#!/bin/sh
# tests/c/header.sh: the header from C. Its bytes, its numbers and its layout against the library, the
# contracts of what is exported, what the library needs from outside, and the stack of every call. The
# last line is `N passed, M failed`.
cd "$(dirname "$0")/../.." || exit 1
. tools/compilers
passed=0 failed=0
room=$(mktemp -d) || exit 1
trap 'rm -rf "$room"' EXIT

# add PASSED FAILED: adds to the count.
add() {
    passed=$((passed + $1))
    failed=$((failed + $2))
}

# holds NAME STATUS: one test, by a status.
holds() {
    if [ "$2" -eq 0 ]; then
        add 1 0
    else
        add 0 1
        echo "failed: $1"
    fi
}

# runs NAME: builds tests/c/NAME.c, shows what it says and adds its count; without one it failed.
runs() {
    "$cc" -std=c11 -Wall -Wextra -Werror -pedantic -I target/pierbracken -o "$room/$1" \
        "tests/c/$1.c" target/pierbracken/libpierbracken.a -lm && "$room/$1" >"$room/$1.said"
    status=$?
    count=$(sed -n '$s/^\([0-9]*\) passed, \([0-9]*\) failed$/\1 \2/p' "$room/$1.said")
    if [ -n "$count" ]; then
        sed '$d' "$room/$1.said"
        add "${count% *}" "${count#* }"
    else
        holds "tests/c/$1.c gave no count, status $status" 1
    fi
}

# contracts CRATE: each function's signature and clauses, without what makes it an export, by file.
contracts() {
    for file in "crates/$1"/src/*.rt; do
        echo "== ${file##*/}"
        sed -n '/^pub .*fn /,/^{$/{ s/^pub extern "C" fn /pub fn /; p; }' "$file"
    done
}

contracts capi >"$room/capi"
contracts capi_c >"$room/capi_c"
grep -q '^    ensures ' "$room/capi" && cmp "$room/capi" "$room/capi_c"
holds "what is exported has the contracts that the theorems speak of" $?

# What the library wants from outside is what the header says of a dynamic linker.
needed=$(echo $("$("$cc" -print-prog-name=nm)" -u target/pierbracken/libpierbracken.a | sed -n 's/^ *U //p' | sort -u))
[ "$needed" = "memcpy memset" ]
holds "the library needs memcpy and memset alone; it needs: $needed" $?

LC_ALL=C grep -n '[^ -~]' include/pierbracken.h
holds "the header is plain ASCII" $(($? != 1))
if command -v "$cxx" >/dev/null 2>&1; then
    "$cxx" -Wall -Wextra -Werror -pedantic -x c++ -fsyntax-only include/pierbracken.h
    holds "the header from C++" $?
else
    echo "no C++ compiler: the header is not tried from C++"
fi
runs layout
runs stack

echo "$passed passed, $failed failed"
[ "$failed" -eq 0 ]
