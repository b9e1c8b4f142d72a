#!/bin/sh
# tests/c/examples.sh: examples/c/judge.c, examples/c/between_samples.c and examples/c/trim.c, built
# and run on the examples, on a trip of the greatest length and on what is no trip: what they print
# and how they end. The last line is `N passed, M failed`.
cd "$(dirname "$0")/../.." || exit 1
. tools/compilers
passed=0 failed=0
room=$(mktemp -d) || exit 1
trap 'rm -rf "$room"' EXIT

# is NAME WANTED FOUND: one test.
is() {
    if [ "$2" = "$3" ]; then
        passed=$((passed + 1))
    else
        failed=$((failed + 1))
        printf 'failed: %s\nwanted: %s\nfound: %s\n' "$1" "$2" "$3"
    fi
}

# ends STATUS PROGRAM WORD ..: runs an example, which ends so, and keeps what it says.
ends() {
    wanted=$1 program=$2
    shift 2
    "$room/$program" "$@" >"$room/said" 2>"$room/error"
    is "the status of $program $*" "$wanted" $?
}

# builds NAME: builds an example as a user does, with every warning an error; it is short.
builds() {
    "$cc" -std=c11 -Wall -Wextra -Werror -pedantic -I target/pierbracken -o "$room/$1" \
        "examples/c/$1.c" target/pierbracken/libpierbracken.a
    is "$1 is built" 0 $?
    [ "$(wc -l <"examples/c/$1.c")" -lt 100 ]
    is "$1 has under a hundred lines" 0 $?
}

# The status that goes with an expected output.
status_of() {
    case $(tail -n 1 "$1") in
    "reasons 0000") echo 0 ;;
    "reasons "*) echo 1 ;;
    *) echo 2 ;;
    esac
}

# The second line of an expected output as between_samples says it.
swept_of() {
    sed -n '2s/$/, between samples as for the whole trip/p' "$1"
}

builds judge
builds between_samples
builds trim

for trip in examples/*.trip; do
    expected=${trip%.trip}.expected
    status=$(status_of "$expected")
    ends "$status" judge "$trip"
    cmp "$room/said" "$expected"
    is "$trip by judge, byte by byte" 0 $?
    [ "$status" -eq 2 ] || status=0
    ends "$status" between_samples "$trip"
    is "$trip by between_samples" "$(swept_of "$expected")" "$(cat "$room/said")"
done

# The seconds of the printed case over and over, up to the longest stream.
tail -c +22 examples/printed.trip >"$room/seconds"
for _ in 1 2 3 4 5 6 7 8 9 10 11; do
    cat "$room/seconds" "$room/seconds" >"$room/more" && mv "$room/more" "$room/seconds"
done
{ head -c 21 examples/printed.trip; cat "$room/seconds"; } >"$room/long"
head -c 122901 "$room/long" >"$room/longest.trip"
head -c 122916 "$room/long" >"$room/longer.trip"
ends 1 judge "$room/longest.trip"
is "8,192 seconds" "seconds 8192 missing 0 kept 8192" "$(head -n 1 "$room/said")"
swept=$(swept_of "$room/said")
ends 0 between_samples "$room/longest.trip"
is "8,192 seconds between samples" "$swept" "$(cat "$room/said")"
for program in judge between_samples; do
    ends 2 "$program" "$room/longer.trip"
    is "a second more, by $program" "refused 2 at 122901" "$(cat "$room/said" "$room/error" | grep at)"
done

ends 1 judge examples/printed.trip
is "reasons in words" "not valid: too short or too long
not valid: a part is too short
not valid: the parts are out of proportion
not valid: too little or too much standing
not valid: too little time above 100 km/h
not valid: too little acceleration to judge
not valid: a class has no windows
not valid: too few windows inside the band" "$(cat "$room/error")"
ends 0 judge examples/valid.trip
is "no reason" "" "$(cat "$room/error")"
ends 2 judge examples/cut.trip
is "a refusal in words" "refused: the stream ends inside an item" "$(cat "$room/error")"
ends 2 judge /dev/null
is "an empty stream" "refused 11 at 0" "$(cat "$room/said")"
ends 2 judge README.md
is "a text" "refused 8 at 0" "$(cat "$room/said")"
head -c 21 examples/printed.trip >"$room/plan.trip"
ends 2 judge "$room/plan.trip"
is "a plan with no seconds" "refused 4 at 0" "$(cat "$room/said")"

for program in judge between_samples trim; do
    kept=
    [ "$program" != trim ] || kept=1
    for none in examples "$room/none"; do
        ends 3 "$program" "$none" $kept
        is "nothing is printed" "" "$(cat "$room/said")"
        is "it is said" "unreadable" "$(cat "$room/error")"
    done
    ends 3 "$program"
    is "how $program is used" "usage: $program TRIP" "$(grep -o "^usage: $program TRIP" "$room/error")"
    ends 3 "$program" examples/valid.trip examples/valid.trip
    "$room/$program" examples/valid.trip $kept >/dev/full 2>"$room/error"
    is "the status of $program where nothing can be written" 3 $?
    is "it is said" "unwritable" "$(cat "$room/error")"
done

# ---- trimming

release=$(sed -n 's/^#define PB_RELEASE \([0-9]*\) .*/\1/p' include/pierbracken.h)

# trims TRIP SECONDS LINE: the stream of its first seconds is the front of the trip's. By the library
# and by the independent program it is the same trip; the line is the first that they say.
trims() {
    ends 0 trim "$1" "$2"
    is "nothing is said" "" "$(cat "$room/error")"
    mv "$room/said" "$room/front.trip"
    head -c "$(wc -c <"$room/front.trip")" "$1" | cmp - "$room/front.trip"
    is "$2 seconds of $1, byte by byte" 0 $?
    "$room/judge" "$room/front.trip" >"$room/said" 2>/dev/null
    is "$2 seconds of $1, judged" "$3" "$(head -n 1 "$room/said")"
    is "$2 seconds of $1, by the independent program" "$(cat "$room/said")" \
        "$(tools/judge-as "$release" "$room/front.trip" 2>/dev/null | tail -n +2)"
}

# not_trimmed STATUS TRIP SECONDS TEXT: nothing is printed, and this is said.
not_trimmed() {
    ends "$1" trim "$2" "$3"
    is "nothing is printed" "" "$(cat "$room/said")"
    is "it is said" "$4" "$(cat "$room/error")"
}

for trip in examples/printed.trip examples/several-reasons.trip examples/valid.trip; do
    trims "$trip" 0 "refused 4 at 0"
    all=$(sed -n '1s/^seconds \([0-9]*\) .*/\1/p' "${trip%.trip}.expected")
    trims "$trip" "$all" "$(head -n 1 "${trip%.trip}.expected")"
    cmp "$room/front.trip" "$trip"
    is "$trip whole" 0 $?
    not_trimmed 3 "$trip" $((all + 1)) "the trip has fewer seconds: $all"
done
trims examples/printed.trip 1 "seconds 1 missing 0 kept 1"
trims examples/printed.trip 0004 "seconds 4 missing 0 kept 4"
trims examples/valid.trip 501 "seconds 501 missing 0 kept 441"
trims examples/valid.trip 3001 "seconds 3001 missing 1 kept 2668"
trims examples/valid.trip 5400 "seconds 5400 missing 20 kept 4980"
trims examples/several-reasons.trip 1074 "seconds 1074 missing 45 kept 909"
trims "$room/longest.trip" 8192 "seconds 8192 missing 0 kept 8192"
trims "$room/longest.trip" 8191 "seconds 8191 missing 0 kept 8191"

for number in "" -1 +1 " 1" "1 " 1x 0x1 1.0 one; do
    not_trimmed 3 examples/printed.trip "$number" \
        "usage: trim TRIP SECONDS, a whole number of them to keep"
done
for number in 8193 18446744073709551616 18446744073709551617 99999999999999999999999; do
    not_trimmed 3 examples/printed.trip "$number" "the trip has fewer seconds: 5"
done

# Bad beyond the seconds to keep, too: what is no stream is not trimmed.
not_trimmed 2 examples/cut.trip 1 "refused 7 at byte 49991: the stream ends inside an item"
not_trimmed 2 "$room/longer.trip" 1 "refused 2 at byte 122901: more than 8,192 seconds"
not_trimmed 2 README.md 1 "refused 8 at byte 0: an item of unknown kind"
not_trimmed 2 /dev/null 0 "refused 11 at byte 0: the plan is absent, late or repeated"
{ cat examples/printed.trip "$room/plan.trip"; } >"$room/bad.trip"
not_trimmed 2 "$room/bad.trip" 1 "refused 11 at byte 96: the plan is absent, late or repeated"
{ printf '\020'; head -c 20 /dev/zero; } >"$room/bad.trip"
not_trimmed 2 "$room/bad.trip" 0 "refused 5 at byte 0: the plan is out of range"
{ cat "$room/plan.trip"; printf '\002\001\377\377'; head -c 12 /dev/zero; } >"$room/bad.trip"
not_trimmed 2 "$room/bad.trip" 1 "refused 3 at byte 22: a value is out of range"
{ cat "$room/plan.trip"; tr '\0' '\2' </dev/zero; } 2>/dev/null |
    timeout 20 "$room/trim" /dev/stdin 1 2>"$room/error" >"$room/said"
is "an input without end" "refused 2 at byte 8213: more than 8,192 seconds" "$(cat "$room/error" "$room/said")"

echo "$passed passed, $failed failed"
[ "$failed" -eq 0 ]
