#!/bin/sh
# Runs the program replay on every sheet here, and trace on those that have a trace, and compares what they print with
# the texts beside the sheet; the sheet of sixteen heads also comes through a pipe in two pieces. Needs both programs built:
# `rt ci` leaves them, and so does `rt run </dev/null` in crates/replay and in crates/trace.
cd "$(dirname "$0")" || exit 2
replay=../crates/replay/out/replay
trace=../crates/trace/out/trace
printed=$(mktemp)
trap 'rm -f "$printed"' EXIT
checked=0
failed=0

compare() { # THE TEXT
    checked=$((checked + 1))
    if ! cmp -s "$printed" "$1"; then
        echo "samples: what is printed is not what $1 has"
        failed=$((failed + 1))
    fi
}

for sheet in *.sheet; do
    "$replay" <"$sheet" >"$printed"
    compare "${sheet%.sheet}.txt"
done
for text in *.trace; do
    "$trace" <"${text%.trace}.sheet" >"$printed"
    compare "$text"
done
{ head -c 1001 sixteen.sheet; sleep 1; tail -c +1002 sixteen.sheet; } | "$replay" >"$printed"
compare sixteen.txt
echo "samples: $checked compared, $failed failed"
[ "$failed" -eq 0 ] && [ "$checked" -gt 30 ]
