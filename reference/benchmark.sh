#!/bin/sh
# Replay and judge of one sheet, its recording from numbers, drafts, and both readers of result words, by the proved static
# library and by the reference (replay and judge by its fast form), both built for release and called by one program on the
# same sheets. Prints time and instructions of one call and their ratios; the reference is measured with overflow checks (as
# it is tested) and without.
set -eu
cd "$(dirname "$0")/.."
work=$(mktemp -d)
trap 'rm -rf "$work"' EXIT
sh tools/build.sh sheet_c
cd reference
export SHEETS_LIB=../crates/sheet_c/out
for profile in release speed; do
    cargo build --quiet --offline --profile "$profile" --features sheets --bin benchmark
done

# all PROFILE SHEET FORM CALLS: the instructions of a run of the program
all() {
    valgrind --tool=callgrind --callgrind-out-file="$work/out" "target/$1/benchmark" "$2" "$3" "$4" 2>&1 | sed -n 's/.*Collected : //p'
}

# instructions PROFILE SHEET FORM: those of one call; a difference, so that start-up is not in it
instructions() {
    few=$(all "$1" "$2" "$3" 1)
    many=$(all "$1" "$2" "$3" 11)
    echo $(((many - few) / 10))
}

# count PROFILE WHAT SHEET: of both forms
count() {
    echo "$1 $2 $3 $(instructions "$1" "$3" "$2") $(instructions "$1" "$3" "$2-reference")" >>"$work/count"
}

# table TITLE FILE WHAT: from lines of profile, what is done, sheet, proved and reference
table() {
    echo "| $1 | Overflow checks in the reference | Proved | Reference | Ratio |"
    echo "|---|---|---|---|---|"
    awk -v what="$3" '$2 == what { printf "| %s | %s | %d | %d | %.2f |\n", $3, $1 == "release" ? "on" : "off", $4, $5, $4 / $5 }' "$2"
}

for profile in release speed; do
    "target/$profile/benchmark" | sed "s/^/$profile /" >>"$work/time"
    for sheet in m1 three five full starts; do
        for what in replay record; do
            count $profile $what $sheet
        done
    done
    for heads in 2 5 8 16; do count $profile draft $heads; done
    for heads in 2 16; do
        for what in display plan; do count $profile $what $heads; done
    done
done
for sheet in m1 three five full starts; do
    echo "$sheet $(instructions speed $sheet tests) $(instructions speed $sheet record)" >>"$work/parts"
done
echo "Replay and judge:"
echo
table Nanoseconds "$work/time" replay
echo
table Instructions "$work/count" replay
echo
echo "Recorder:"
echo
table Nanoseconds "$work/time" record
echo
table Instructions "$work/count" record
echo
echo "| Instructions | Tests alone | Tests and writing |"
echo "|---|---|---|"
awk '{ printf "| %s | %d | %d |\n", $1, $2, $3 }' "$work/parts"
echo
echo "Drafts, by the number of heads:"
echo
table Nanoseconds "$work/time" draft
echo
table Instructions "$work/count" draft
for what in display plan; do
    echo
    echo "Reader $what, by the number of heads:"
    echo
    table Nanoseconds "$work/time" $what
    echo
    table Instructions "$work/count" $what
done
