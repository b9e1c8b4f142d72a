#!/bin/sh
# What a release said and answered is history. The sum of each file of a frozen set stands in the
# release's entry of docs/VALID.md, and the sum of the entry in tests/releases/N/entry.sha256. The
# last line is `N passed, M failed`.
cd "$(dirname "$0")/../.." || exit 1
passed=0 failed=0

# held NAME SUM: whether the last command found the sum.
held() {
    if [ $? -eq 0 ]; then
        passed=$((passed + 1))
    else
        failed=$((failed + 1))
        echo "$1 is not what it was when the release was made (sum now: $2)."
        echo "  It is never changed: another meaning is another release, with a set and an entry of its own."
    fi
}

# entry RELEASE: its part of docs/VALID.md, without blank lines at the end.
entry() {
    awk -v head="## Release $1" '
        /^## / { inside = ($0 == head) }
        inside && /^$/ { blank = blank "\n"; next }
        inside { printf "%s%s\n", blank, $0; blank = "" }
    ' docs/VALID.md
}

for folder in tests/releases/*/; do
    release=$(basename "$folder")
    sum=$(entry "$release" | sha256sum | cut -d ' ' -f 1)
    grep -q "^$sum\$" "tests/releases/$release/entry.sha256"
    held "the entry of release $release in docs/VALID.md" "$sum"
    for set in "tests/releases/$release"/*.txt; do
        sum=$(sha256sum <"$set" | cut -d ' ' -f 1)
        entry "$release" | grep -q "\`$set\`.*\`$sum\`"
        held "$set" "$sum"
    done
done
echo "$passed passed, $failed failed"
[ "$failed" -eq 0 ]
