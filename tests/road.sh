#!/bin/sh
# docs/READING.md is the approver's road: it must name every file of definitions, and of theorems about
# the whole, with the lines that it has, and stay short. A line counts that is not blank, no comment and
# no `use`. The last line is `N passed, M failed`.
cd "$(dirname "$0")/.." || exit 1
most=1200
page=docs/READING.md
passed=0 failed=0

# says WORDS: counts the last command as a test, and says the words where it failed.
says() {
    if [ $? -eq 0 ]; then
        passed=$((passed + 1))
    else
        failed=$((failed + 1))
        echo "$1"
    fi
}

# lines FILE: the lines of a file that are to be read.
lines() {
    grep -v -e '^use ' -e '^ *--' "$1" | grep -c '[^[:space:]]'
}

# rows: the rows of the page's tables, as `crate specs/File lines part`, or `proofs/File` in its place; a
# part is a heading of the page.
rows() {
    awk '
        /^## / { part = substr($0, 4); gsub(/ /, "_", part) }
        /^\| `[a-z]+\.(proofs\.)?[A-Z][A-Za-z]*` \| [0-9]+ \|/ {
            split($2, name, "[`.]")
            print name[2], (name[3] == "proofs" ? "proofs/" name[4] : "specs/" name[3]), $4, part
        }
    ' "$page"
}

rows >"${TMPDIR:-/tmp}/road.$$"
trap 'rm -f "${TMPDIR:-/tmp}/road.$$"' EXIT

while read -r crate file count _; do
    now=$(lines "crates/$crate/$file.antt" 2>/dev/null)
    [ "$now" = "$count" ]
    says "$page gives crates/$crate/$file.antt $count lines; it has ${now:-none}."
done <"${TMPDIR:-/tmp}/road.$$"

# The theorems of the facade stand in its proofs/ too.
for path in crates/*/specs/*.antt crates/pierbracken/proofs/*.antt; do
    crate=${path#crates/} file=${path%.antt}
    crate=${crate%%/*} file=${file#crates/*/}
    case $file in */Lib | */Inside) continue ;; esac
    grep -q "^$crate $file " "${TMPDIR:-/tmp}/road.$$"
    says "$path does not stand in $page."
done

sum=$(awk '$4 == "The_definitions" { n += $3 } END { print n + 0 }' "${TMPDIR:-/tmp}/road.$$")
[ "$sum" -gt 0 ] && [ "$sum" -lt "$most" ]
says "The definitions on the road have $sum lines; they should be under $most."
grep -q "^In all: $sum lines\." "$page"
says "$page should say: In all: $sum lines."

echo "$passed passed, $failed failed"
[ "$failed" -eq 0 ]
