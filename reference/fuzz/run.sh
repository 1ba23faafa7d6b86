#!/bin/sh
# run.sh step|sheet SECONDS [WORDS..]: compares a proved static library with the reference under libFuzzer, the step of one
# head, or replay and judge and both readers of result words, until a difference or for so long. WORDS go to the fuzzer. Needs
# clang with libFuzzer's runtime.
# What is built, the inputs kept and an input that shows a difference (crash-*) are in target/fuzz. The counters that guide it
# are those of the library and of the reference; with COUNTERS=library, of the library alone: cov then says how much of it
# is reached.
set -eu
usage() {
    echo "usage: run.sh step|sheet SECONDS [WORDS..]" >&2
    exit 2
}
[ $# -ge 2 ] || usage
case $1 in
    step) crate=board_c folder=BOARD_LIB longest=1443 ;;
    sheet) crate=sheet_c folder=SHEETS_LIB longest=49300 ;;
    *) usage ;;
esac
target=$1 seconds=$2
shift 2
cd "$(dirname "$0")/../.."
work=$PWD/target/fuzz/$target
cover=inline-8bit-counters,pc-table,trace-cmp
. boards/module.sh
mkdir -p "$work/seeds" "$work/inputs"

# The library compiled once more, with the fuzzer's counters, from the module that was proved, in a folder of its own.
mkdir -p "$work/proved" "$work/covered"
anew "$crate" "$work/proved" "-fsanitize-coverage=$cover" -o "$work/covered/covered.o"
if ! [ "$work/covered/lib$crate.a" -nt "$work/covered/covered.o" ]; then
    rm -f "$work/covered/lib$crate.a"
    ar rcs "$work/covered/lib$crate.a" "$work/covered/covered.o"
fi

counters=${COUNTERS:-both}
passes="-Ccodegen-units=1"
if [ "$counters" = both ]; then
    passes="$passes -Cpasses=sancov-module -Cllvm-args=-sanitizer-coverage-level=3"
    for counter in inline-8bit-counters pc-table trace-compares; do
        passes="$passes -Cllvm-args=-sanitizer-coverage-$counter"
    done
fi
triple=$(rustc -vV | sed -n 's/^host: //p')
(cd reference && cargo build --release --offline --bin generate)
(cd reference/fuzz && env "$folder=$work/covered" RUSTFLAGS="$passes" \
    cargo build --release --offline --target "$triple" --features "$target")
clang -fsanitize=fuzzer "reference/fuzz/target/$triple/release/libfuzz.a" -o "$work/fuzz-$counters" -lpthread -ldl -lm

# For sheets the fuzzer starts from the samples and from short generated sheets.
if [ "$target" = sheet ]; then
    reference/target/release/generate 1 600 "$work/seeds"
    find "$work/seeds" -type f -size +4 -delete
    cp samples/*.sheet "$work/seeds"
fi
exec "$work/fuzz-$counters" "$work/inputs" "$work/seeds" -max_total_time="$seconds" -max_len="$longest" \
    -artifact_prefix="$work/" -print_final_stats=1 "$@"
