#!/bin/sh
# Builds the static libraries and the program replay, compiles the C examples against the libraries and the headers, and compares
# what they print. Prints "ok" at the end.
set -eu
cd "$(dirname "$0")/.."
out=target/examples
board=crates/board_c/out/libboard_c.a
sheet=crates/sheet_c/out/libsheet_c.a
replay=crates/replay/out/replay
mkdir -p "$out"

# compile EXAMPLE FILE..: with these sources and libraries
compile() {
    name=$1
    shift
    "${CC:-cc}" -std=c99 -O2 -Wall -Wextra -pedantic -Werror -Iinclude "examples/$name.c" "$@" -o "$out/$name"
}

# build LIBRARY EXAMPLE..
build() {
    library=$1
    shift
    for example in "$@"; do compile "$example" "$library"; done
}

# prints EXAMPLE..: each prints what its file has
prints() {
    for name in "$@"; do
        "$out/$name" >"$out/$name.out"
        diff "examples/$name.expected" "$out/$name.out"
    done
}

# refuses CAUSE EXAMPLE ARGUMENT..: so the example turns back what it is given, and writes nothing; a place may follow the
# cause
refuses() {
    cause=$1 name=$2
    shift 2
    ! "$out/$name" "$@" >"$out/refused.sheet" 2>"$out/refused"
    echo "refused $cause" | diff - "$out/refused"
    [ ! -s "$out/refused.sheet" ]
}

# drafts N F FIRST SPACING: replay finds all premises kept in this practice sheet, and every head led by head 0, whose start
# comes to all of them N spacings after the first real time
drafts() {
    start=$(($3 + $4 * $1))
    for head in $(seq 0 $(($1 - 1))); do
        echo "$head 2 0 0 $start $start 0"
    done >"$out/draft.expected"
    echo "premises 0" >>"$out/draft.expected"
    "$out/draft" "$@" | "$replay" | diff "$out/draft.expected" -
}

sh tools/build.sh board_c sheet_c replay
build "$board" two_boards edges other_candidate
prints two_boards edges other_candidate
build "$sheet" one_sheet recorder draft bus_load
compile bench examples/bench/*.c examples/firmware.c "$board" "$sheet"
prints one_sheet

# M1 from its numbers is M1 word for word, and replays to M1's lines
"$out/recorder" 2 0 3 100 10 <examples/m1.numbers >"$out/m1.sheet"
cmp samples/m1.sheet "$out/m1.sheet"
"$replay" <"$out/m1.sheet" | diff samples/m1.txt -

yes 0 | head -n 24577 | refuses 1 recorder 2 0 3 100 10
echo 950 1000 1 1 0 | refuses 2 recorder 2 0 3 100 10
echo 950 1000 1 1 1 0 | refuses 12 recorder 17 0 3 100 10
echo 950 1000 1 1 0 0 | refuses 12 recorder 256 0 3 100 10
echo 950 1000 1 10 0 0 | refuses 3 recorder 17 0 3 100 10
echo 950 1000 1 10 0 0 | refuses 6 recorder 2 0 3 100 10

# practice sheets of every n and f, with the last real time at its bound too; that of five heads is the sample
for n in $(seq 2 16); do
    for f in $(seq 0 $(((n - 1) / 2))); do
        drafts "$n" "$f" 1000 100
        drafts "$n" "$f" 0 0
        drafts "$n" "$f" $((268435455 - 1000 * (9 * n - 1))) 1000
    done
    refuses 13 draft "$n" 0 $((268435456 - 1000 * (9 * n - 1))) 1000
done
"$out/draft" 5 | cmp samples/drafted.sheet -
refuses 3 draft 17
refuses 3 draft 16 8 0 0

# the bus load of M1, of a practice sheet, in which every head broadcasts one frame of each sort too, and of sheets in which
# heads vote again or stop
for sheet in m1 drafted other-candidate sixteen; do
    "$out/bus_load" <"samples/$sheet.sheet"
done >"$out/bus_load.out"
diff examples/bus_load.expected "$out/bus_load.out"
refuses "1 0" bus_load <samples/cause-1.sheet
refuses "2 0" bus_load <samples/cause-2-bytes.sheet
refuses "9 8" bus_load <samples/cause-9.sheet

# the simulated bench: a round that keeps all premises and one that does not as tables, and a report of a thousand; replay
# finds the same premise broken in the second one's sheet
for rounds in "1 2" "1 346" "1000 1"; do
    "$out/bench" $rounds
done >"$out/bench.out"
diff examples/bench.expected "$out/bench.out"
"$out/bench" 1 346 sheet | "$replay" | tail -n 1 >"$out/bench.premises"
echo "premises 5" | diff - "$out/bench.premises"
if "$out/bench" 0 1 2>"$out/bench.usage"; then exit 1; fi
echo ok
