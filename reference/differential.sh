#!/bin/sh
# differential.sh SEED SHEETS ACTIONS RECORDINGS DRAFTS RESULTS CALLS: builds the proved programs corpus and trace, the
# proved static libraries and the reference, and compares them on so many fresh sheets (the last line of trace on a twentieth
# of them), so many actions at one head, so many calls of the recorder, so many of the drafter beside those at its bounds, so
# many sheets whose result words are compared and read, and so many calls of both readers. Fails at the first difference; a
# sheet that is answered differently is saved as difference.sheet.
set -eu
[ $# -eq 7 ] || { echo "usage: differential.sh SEED SHEETS ACTIONS RECORDINGS DRAFTS RESULTS CALLS" >&2 && exit 2; }
cd "$(dirname "$0")/.."
sh tools/build.sh corpus trace board_c sheet_c
(cd reference && BOARD_LIB=../crates/board_c/out SHEETS_LIB=../crates/sheet_c/out cargo build --release --offline --features board,sheets)
reference/target/release/differential crates/corpus/out/corpus "$1" "$2"
reference/target/release/traces crates/trace/out/trace "$1" "$(($2 / 20))"
reference/target/release/actions "$1" "$3"
reference/target/release/recordings "$1" "$4"
reference/target/release/drafts "$1" "$5"
reference/target/release/results "$1" "$6" "$7"
