#!/usr/bin/env bash
# Checks a program that lists sheets as list_sheet does: what it prints where, and its exit status.
#
#     host/check-program.sh [PROGRAM]
#
# A listing is printed with status 0 and nothing on standard error. A refused sheet has status 1, its number and
# words on standard error, and nothing on standard output. A sheet that cannot be read, or a listing that cannot be
# written, has status 2 and a message. Whatever is wrong is told, and then the exit status is 1.
set -eu -o pipefail
program=$(realpath -- "${1:-"$(dirname "$0")/../target/host/list_sheet"}")
cd "$(dirname "$0")/.."
place=$(mktemp -d)
trap 'rm -rf "$place"' EXIT
wrong=0 listed=0 refused=0 faulted=0

# problem WORDS: remembers what is wrong.
problem() {
    echo "$program: $1"
    wrong=$((wrong + 1))
}

# run INPUT ARGUMENT..: runs the program, and keeps what it prints and its status.
run() {
    local from=$1
    shift
    status=0
    "$program" "$@" < "$from" > "$place/out" 2> "$place/err" || status=$?
}

# silent NAME STREAM: nothing was printed there.
silent() {
    [ ! -s "$place/$2" ] || problem "$1: prints on $2: $(head -c 200 "$place/$2")"
}

# ended NAME STATUS: the program ended with this status.
ended() {
    [ "$status" -eq "$2" ] || problem "$1: status $status, not $2"
}

# listing NAME LISTING: the listing was printed, and nothing else.
listing() {
    ended "$1" 0
    cmp -s "$place/out" "$2" || problem "$1: another listing than $2"
    silent "$1" err
    listed=$((listed + 1))
}

# words NUMBER: what the words of a refusal have to say. README's table of refusals says it too.
words() {
    case $1 in
    1) echo "k is 0 or above 64" ;;
    4) echo "above 4,095" ;;
    5) echo "not above the one before it" ;;
    8) echo "more than 2,048 pairs" ;;
    9) echo "badly formed" ;;
    10) echo "above 65,535" ;;
    11) echo "over 24,576 bytes" ;;
    *) echo "a refusal that a sheet cannot cause" ;;
    esac
}

# refusal NAME LISTING: the refusal was told in words, with the number that stands in the listing.
refusal() {
    local number
    number=$(sed -n 's/^refused=\([0-9]*\) [0-9]*$/\1/p' "$2")
    [ -n "$number" ] || problem "$2: not the line of a refusal"
    ended "$1" 1
    grep -q -x "refused ($number): .*$(words "$number").*" "$place/err" ||
        problem "$1: not the words of refusal $number: $(head -c 200 "$place/err")"
    [ "$(wc -l < "$place/err")" -eq 1 ] || problem "$1: not one line on err"
    silent "$1" out
    refused=$((refused + 1))
}

# fault NAME: the program gave up with status 2 and a message.
fault() {
    ended "$1" 2
    [ -s "$place/err" ] || problem "$1: no message"
    faulted=$((faulted + 1))
}

# each CHECK SHEET LISTING: as an argument, on standard input, and through a pipe that gives it in two parts.
each() {
    run /dev/null "$2"
    "$1" "$2" "$3"
    run "$2"
    "$1" "$2 on standard input" "$3"
    status=0
    { { head -c 9 "$2"; sleep 0.03; tail -c +10 "$2"; } | "$program" > "$place/out" 2> "$place/err"; } || status=$?
    "$1" "$2 through a pipe" "$3"
}

stored() {
    local sheet
    each listing crates/sazamkhri/stdin crates/sazamkhri/stdout
    for sheet in examples/*.sheet; do
        each listing "$sheet" "${sheet%.sheet}.listing"
    done
    for sheet in examples/refused/*.sheet; do
        each refusal "$sheet" "${sheet%.sheet}.listing"
    done
}

# The sheets with the names that files have.
names() {
    local name
    for name in "two words.sheet" "l'âge \$du \"bronze\".sheet" "სამარხი.sheet" "%s%n.sheet"; do
        cp examples/three.sheet "$place/$name"
        run /dev/null "$place/$name"
        listing "$name" examples/three.listing
    done
}

# A sheet that is longer than the limit, and one with a zero byte.
odd_sheets() {
    { cat examples/three.sheet; head -c 24577 /dev/zero | tr '\0' x; } > "$place/long.sheet"
    echo "refused=11 24576" > "$place/long.listing"
    each refusal "$place/long.sheet" "$place/long.listing"
    printf 'k=1\0\ncontexts=0\n' > "$place/zero.sheet"
    echo "refused=9 3" > "$place/zero.listing"
    each refusal "$place/zero.sheet" "$place/zero.listing"
}

# reads_nothing NAME INPUT ARGUMENT..: no sheet to read.
reads_nothing() {
    local name=$1
    shift
    run "$@"
    fault "$name"
    silent "$name" out
}

faults() {
    local sheet=examples/three.sheet bad
    bad=$(find examples/refused -name '*.sheet' | sort | head -n 1)
    reads_nothing "a missing file" /dev/null "$place/none.sheet"
    grep -q -F "$place/none.sheet" "$place/err" || problem "a missing file: not named"
    reads_nothing "a folder" /dev/null "$place"
    grep -q -F "$place" "$place/err" || problem "a folder: not named"
    reads_nothing "a folder on standard input" "$place"
    reads_nothing "two arguments" /dev/null "$sheet" "$sheet"
    status=0
    "$program" "$sheet" > /dev/full 2> "$place/err" || status=$?
    fault "a full disk"
    status=0
    "$program" "$sheet" >&- 2> "$place/err" || status=$?
    fault "a closed output"
    status=0
    "$program" <&- > "$place/out" 2> "$place/err" || status=$?
    fault "a closed input"
    silent "a closed input" out
    status=0
    "$program" "$bad" > "$place/out" 2> /dev/full || status=$?
    ended "a refusal whose words cannot be written" 1
    silent "a refusal whose words cannot be written" out
}

stored
names
odd_sheets
faults
[ "$listed" -gt 8 ] || problem "only $listed listings were tried"
[ "$refused" -gt 20 ] || problem "only $refused refusals were tried"
[ "$wrong" -eq 0 ] || { echo "$program: $wrong wrong"; exit 1; }
echo "$(basename "$program"): $listed listings, $refused refusals, $faulted faults, each with its status and stream"
