#!/bin/sh
# tests/program.sh: the examples by the program and by `make judge`; a trip by an earlier release; a
# trip trimmed; and the program on inputs that are empty, fail or do not end. The last line is
# `N passed, M failed`.
cd "$(dirname "$0")/.." || exit 1
judge=target/bin/judge
passed=0 failed=0
room=$(mktemp -d) || exit 1
trap 'rm -rf "$room"' EXIT
# What was set for the run of the tests is not for the commands that they run.
unset PROGRESS TRIP RELEASE SECONDS KEEP

# wants NAME FILE: what was said is what the file has.
wants() {
    if cmp -s "$room/said" "$2"; then
        passed=$((passed + 1))
    else
        failed=$((failed + 1))
        printf 'failed: %s\n' "$1"
        head -n 8 "$room/said"
    fi
}

# says NAME TEXT: what was said is the text.
says() {
    printf '%s\n' "$2" >"$room/wanted"
    wants "$1" "$room/wanted"
}

# runs COMMAND ..: keeps what the command says, its standard error and its status.
runs() {
    "$@" >"$room/said" 2>"$room/error"
    ended=$?
}

# ends NAME STATUS TEXT: the command ended with the status, and standard error is the text. The line
# that make adds to each failure is left out.
ends() {
    grep -v '^make.*[*][*][*]' "$room/error" >"$room/said"
    echo "status $ended" >>"$room/said"
    says "$1" "${3:+$3
}status $2"
}

for trip in examples/*.trip; do
    "$judge" <"$trip" >"$room/said" 2>&1
    wants "$trip by the program" "${trip%.trip}.expected"
    make --no-print-directory judge TRIP="$trip" >"$room/said" 2>"$room/error"
    wants "$trip by make judge" "${trip%.trip}.expected"
done

make --no-print-directory judge-as RELEASE=1 TRIP=examples/printed.trip >"$room/said" 2>&1
says "the printed case by release 1" "release 1 of the meaning, by the independent program:
seconds 5 missing 0 kept 5
windows 4 moves 9
urban 4 0
rural 0 0
motorway 0 0
reasons c86d"
make --no-print-directory judge-as RELEASE=1 TRIP=examples/valid-by-release-1.trip 2>&1 | tail -n 1 >"$room/said"
says "a trip that was valid by release 1, by release 1" "reasons 0000"

"$judge" </dev/null >"$room/said" 2>&1
says "an empty stream" "refused 11 at 0"
head -c 21 examples/printed.trip | "$judge" >"$room/said" 2>&1
says "a plan with no seconds" "refused 4 at 0"
timeout 20 "$judge" </dev/zero >"$room/said" 2>&1
says "an input without end, of no kind" "refused 8 at 0"
{ head -c 21 examples/printed.trip; tr '\0' '\2' </dev/zero; } 2>/dev/null |
    timeout 20 "$judge" >"$room/said" 2>&1
says "an input without end, of missing seconds" "refused 2 at 8213"

"$judge" <. >"$room/said" 2>"$room/error"
wants "a read that fails: nothing is printed" /dev/null
cp "$room/error" "$room/said"
says "a read that fails: it is said" "unreadable"

# ---- what the commands say of a file, and their exit statuses: 0 judged, 2 refused, 3 no answer

# no_answer NAME TEXT: the command printed nothing, said the text and ended with 3.
no_answer() {
    wants "$1: nothing is printed" /dev/null
    ends "$1" 3 "$2"
}

# refused NAME ANSWER TEXT: the command printed the answer, said the text and ended with 2.
refused() {
    says "$1: the answer" "$2"
    ends "$1" 2 "$3"
}

root=.
. tools/trip

# The numbers of refusal that have no words.
without_words() {
    for number in 1 2 3 4 5 6 7 8 9 10 11 12 13; do
        [ -n "$(meaning_of_refusal "$number")" ] || echo "$number"
    done
}

# as_user COMMAND ..: as one for whom a file can be closed, which for root none is.
as_user() {
    if [ "$(id -u)" -ne 0 ]; then
        "$@"
    else
        setpriv --reuid=65534 --regid=65534 --clear-groups "$@"
    fi
}

runs tools/judge examples/printed.trip
ends "a trip with reasons is judged" 0 ""
runs tools/judge examples/valid.trip
ends "a valid trip is judged" 0 ""
runs tools/judge examples/cut.trip
refused "a cut stream" "$(cat examples/cut.expected)" "judge: refusal 7: $(meaning_of_refusal 7)"
without_words >"$room/said"
wants "each number of refusal has its words" /dev/null

printf 'seconds of a trip\n' >"$room/text"
runs tools/judge "$room/text"
refused "a text" "refused 8 at 0" \
    "judge: this is no trip stream: its first byte is 0x73, a stream begins with its plan, 0x10: $room/text"
: >"$room/empty"
runs tools/judge "$room/empty"
refused "an empty file" "refused 11 at 0" "judge: the file is empty: $room/empty"
runs tools/judge "$room/none"
no_answer "no such file" "judge: no such file: $room/none"
runs tools/judge "$room"
no_answer "a directory" "judge: this is a directory: $room"
runs tools/judge
no_answer "no file is named" "judge: which trip? make judge TRIP=FILE, or tools/judge FILE"

runs tools/judge "/proc/$$/mem"
wants "a file whose read fails: nothing is printed" /dev/null
tail -n 1 "$room/error" >"$room/error.last" && mv "$room/error.last" "$room/error"
ends "a file whose read fails" 3 "judge: there is no answer, the file could not be read: /proc/$$/mem"
tools/judge examples/printed.trip >/dev/full 2>"$room/error"
ended=$?
ends "an answer that cannot be written" 3 "judge: the answer could not be written"

# A copy that every user reaches: this is said before the program is needed.
mkdir -m 755 "$room/open" "$room/open/tools"
cp tools/judge tools/trim tools/trip tools/needs "$room/open/tools"
cp examples/printed.trip "$room/open/closed.trip"
chmod 755 "$room" "$room/open/tools/judge" "$room/open/tools/trim"
chmod 644 "$room/open/tools/trip" "$room/open/tools/needs"
chmod 000 "$room/open/closed.trip"
runs as_user "$room/open/tools/judge" "$room/open/closed.trip"
no_answer "a file that may not be read" "judge: this file may not be read: $room/open/closed.trip"
runs as_user "$room/open/tools/trim" "$room/open/closed.trip" 1
no_answer "a file that may not be read, by trim" "trim: this file may not be read: $room/open/closed.trip"

runs tools/judge-as 1 examples/printed.trip
ends "a trip is judged by release 1" 0 ""
runs tools/judge-as 1 examples/cut.trip
refused "a cut stream, by release 1" "release 1 of the meaning, by the independent program:
$(cat examples/cut.expected)" "judge-as: refusal 7: $(meaning_of_refusal 7)"
runs tools/judge-as 1 "$room/none"
no_answer "no such file, by release 1" "judge-as: no such file: $room/none"
runs tools/judge-as 1 .
no_answer "a directory, by release 1" "judge-as: this is a directory: ."
runs tools/judge-as 0 examples/printed.trip
wants "a release that never was: nothing is printed" /dev/null
sed 's/: they run .*//' "$room/error" >"$room/error.cut" && mv "$room/error.cut" "$room/error"
ends "a release that never was" 3 'there is no release `0`'

# ---- a trip trimmed: 0 written, 2 refused, 3 nothing to write

which="trim: which trip, and how many seconds of it? make trim TRIP=FILE SECONDS=N > OUT, or tools/trim FILE N > OUT"
runs tools/trim examples/printed.trip 5
wants "all seconds of a trip" examples/printed.trip
ends "all seconds of a trip are written" 0 ""
runs tools/trim examples/printed.trip 6
no_answer "more seconds than a trip has" "the trip has fewer seconds: 5"
runs tools/trim examples/cut.trip 5
wants "a cut stream, by trim: nothing is printed" /dev/null
ends "a cut stream, by trim" 2 "refused 7 at byte 49991: the stream ends inside an item"
runs tools/trim "$room/none" 5
no_answer "no such file, by trim" "trim: no such file: $room/none"
runs tools/trim "$room" 5
no_answer "a directory, by trim" "trim: this is a directory: $room"
runs tools/trim "/proc/$$/mem" 5
no_answer "a file whose read fails, by trim" "unreadable"
runs tools/trim examples/printed.trip
no_answer "no seconds are named" "$which"
runs tools/trim "" 5
no_answer "no trip is named" "$which"
tools/trim examples/printed.trip 5 >/dev/full 2>"$room/error"
ended=$?
ends "a stream that cannot be written" 3 "unwritable"
if command -v script >/dev/null; then
    runs script -q -e -c "tools/trim examples/printed.trip 5" /dev/null
    tr -d '\r' <"$room/said" >"$room/error"
    ends "a stream to a terminal" 3 "trim: a stream is not for a terminal: say where to, > OUT"
fi

# ---- the commands of make

# made WORDS ..: runs make.
made() {
    runs make --no-print-directory "$@"
}

# Tools that leave a mark when they are started.
mkdir "$room/marking"
for tool in rt cargo cc; do
    printf '#!/bin/sh\n: >"%s/started"\n' "$room" >"$room/marking/$tool"
    chmod +x "$room/marking/$tool"
done

# The commands of the Makefile that the list of `make help` has not.
not_listed() {
    for command in $(sed -n 's/^\.PHONY: //p' Makefile); do
        grep -q "^make $command " "$room/help" || echo "$command"
    done
}

make --no-print-directory help >"$room/help"
not_listed >"$room/said"
wants "make help lists every command" /dev/null
PATH="$room/marking:$PATH" made
wants "make alone prints the list" "$room/help"
ends "make alone ends well" 0 ""
ls "$room/started" >"$room/said" 2>/dev/null
wants "make alone starts nothing" /dev/null

made judge
wants "make judge without a trip: nothing is printed" /dev/null
ends "make judge without a trip" 2 "judge: which trip? make judge TRIP=FILE, or tools/judge FILE"
made judge-as RELEASE=1
wants "make judge-as without a trip: nothing is printed" /dev/null
ends "make judge-as without a trip" 2 \
    "judge-as: which release, and which trip? make judge-as RELEASE=1 TRIP=FILE, or tools/judge-as RELEASE FILE"
made judge TRIP="$room/none"
ends "make judge of no such file" 2 "judge: no such file: $room/none"
made trim TRIP=examples/printed.trip
wants "make trim without seconds: nothing is printed" /dev/null
ends "make trim without seconds" 2 "$which"
# In some shells SECONDS is a clock, which begins at the number that it is handed, or at 0.
for shell in sh $(command -v bash); do
    for number in none '$0' '$(words 1 2 3)' '`echo 3`'; do
        made SHELL="$shell" trim TRIP=examples/printed.trip SECONDS="$number"
        wants "$number seconds by make trim and $shell: nothing is printed" /dev/null
        ends "$number seconds by make trim and $shell" 2 \
            "usage: trim TRIP SECONDS, a whole number of them to keep"
    done
done

# A copy with program and library built, in whose folder a name can begin with anything.
mkdir -p "$room/copy/crates/base/src" "$room/copy/target/bin" "$room/copy/target/staticlib" "$room/copy/examples"
cp -Rp Makefile tools include crates.txt "$room/copy"
cp -Rp examples/c "$room/copy/examples"
cp -p "$judge" "$room/copy/target/bin"
cp -p target/staticlib/libcapi.a "$room/copy/target/staticlib"
touch "$room/copy/target/judge.built" "$room/copy/target/lib.built"
for name in "it's a \$5 trip.trip" '$HOME $(TRIP) $$.trip' 'a;b & c#d.trip' '-n' '--' '"q" \n `x` *?.trip' 'a=b:c%d|e'; do
    cp examples/printed.trip "$room/copy/./$name"
    runs make --no-print-directory -C "$room/copy" judge TRIP="$name"
    wants "the file $name, by make judge" examples/printed.expected
    TRIP=$name runs make --no-print-directory -C "$room/copy" judge
    wants "the file $name, by make judge, named in the environment" examples/printed.expected
    runs make --no-print-directory -C "$room/copy" trim TRIP="$name" SECONDS=5
    wants "the file $name, by make trim" examples/printed.trip
done
name="it's a \$5; -trip#.trip"
cp examples/printed.trip "$room/$name"
made judge-as RELEASE=1 TRIP="$room/$name"
tail -n +2 "$room/said" >"$room/said.six" && mv "$room/said.six" "$room/said"
wants "the file $name, by make judge-as" examples/printed.expected
made judge-as RELEASE="\$0 '; #" TRIP="$room/$name"
sed 's/: they run .*//' "$room/error" >"$room/error.cut" && mv "$room/error.cut" "$room/error"
ends "an odd release, by make judge-as" 2 "there is no release \`\$0 '; #\`"

# ---- how far long work is

# A repository of three crates that the program stands on and more, and an rt that says it proves them.
small=$room/small
mkdir -p "$small/crates" "$room/saying"
cp -Rp Makefile tools include "$small"
printf '%s\n' '# a comment' 'base:' 'item: base' 'other: base' 'judge: item' 'capi_c staticlib: item' 'probe staticlib: other' >"$small/crates.txt"
for crate in base item other judge capi_c probe; do
    mkdir -p "$small/crates/$crate/src"
done
cat >"$room/saying/rt" <<'END'
#!/bin/sh
crate=${PWD##*/}
echo "$crate: $*" >>../../asked
case $* in
"all check")
    echo "rt: chose 2 at a time"
    echo "== base"
    echo "fn base::some: proved"
    echo "logic=proved functions=1"
    echo "== item"
    [ ! -e ../../fails ] || exit 1
    echo "== $crate"
    echo "logic=proved functions=1"
    echo "== summary"
    echo "3 of 3 crates ok"
    ;;
"run --backend llvm")
    mkdir -p out
    printf '#!/bin/sh\necho "refused 4 at 0"\n' >out/judge
    chmod +x out/judge
    out/judge
    ;;
lib)
    mkdir -p out
    : >"out/lib$crate.a"
    ;;
esac
END
chmod +x "$room/saying/rt"

# saying COMMAND ..: runs a command in the small repository, from nothing, with the rt that says so.
saying() {
    rm -rf "$small/target" "$small/asked" "$small"/crates/*/out
    PATH="$room/saying:$PATH" runs "$@"
}

saying "$small/tools/judge" examples/printed.trip
refused "a first judging, in a log" "refused 4 at 0" "judge: proving the program's 3 crates; this takes minutes the first time
judge: crate 1 of 3 proved: base
judge: crate 3 of 3 proved: judge
judge: refusal 4: $(meaning_of_refusal 4)"
saying "$small/tools/lib"
says "the library, in a log" "target/pierbracken: libpierbracken.a pierbracken.h"
ends "the library, in a log" 0 "lib: proving the library's 3 crates; this takes minutes the first time
lib: crate 1 of 3 proved: base
lib: crate 3 of 3 proved: capi_c"
cp "$small/asked" "$room/said"
says "the library is what is proved for the library" "capi_c: all check
capi_c: lib"
# again: the library once more, not from nothing; `asked` is there where something was proved.
again() {
    rm -f "$small/asked"
    PATH="$room/saying:$PATH" runs "$small/tools/lib"
    head -n 1 "$small/asked" >"$room/said" 2>/dev/null
}
again
wants "a library that is built is not proved again" /dev/null
mkdir "$small/crates/item/out" && : >"$small/crates/item/out/kept"
again
wants "what rt keeps is no source" /dev/null
: >"$small/crates/item/src/edited"
again
says "a library older than a source is proved again" "capi_c: all check"

: >"$small/fails"
saying "$small/tools/judge" examples/printed.trip
wants "a program that is not proved: nothing is printed" /dev/null
tail -n 1 "$room/error" >"$room/error.last" && mv "$room/error.last" "$room/error"
ends "a program that is not proved" 3 "judge: the program is not built; target/judge.log has all that was said"
saying "$small/tools/trim" examples/printed.trip 5
wants "a library that is not proved, by trim: nothing is printed" /dev/null
tail -n 1 "$room/error" >"$room/error.last" && mv "$room/error.last" "$room/error"
ends "a library that is not proved, by trim" 3 "lib: the library is not built; target/lib.log has all that was said"
rm "$small/fails"

# On a terminal: one line, drawn again from its beginning, and taken away before the answer.
if command -v script >/dev/null; then
    saying script -q -e -c "$small/tools/judge examples/printed.trip" /dev/null
    tr '\r\033' '\n~' <"$room/said" | grep . >"$room/lines"
    mv "$room/lines" "$room/said"
    says "a first judging, on a terminal" "~[Kjudge: proving the program's 3 crates; this takes minutes the first time
~[Kjudge: crate 1 of 3 proved: base
~[Kjudge: crate 2 of 3 proved: item
~[Kjudge: crate 3 of 3 proved: judge
~[Krefused 4 at 0
judge: refusal 4: $(meaning_of_refusal 4)"
fi

echo "$passed passed, $failed failed"
[ "$failed" -eq 0 ]
