#!/bin/sh
# build.sh CRATE..: proves static libraries and programs, over what earlier checks kept, and builds them:
# crates/CRATE/out/libCRATE.a, or crates/CRATE/out/CRATE, which `rt run` leaves after a run on no input. What rt says is shown only
# if it fails.
set -eu
cd "$(dirname "$0")/../crates"
said=$(mktemp)
trap 'rm -f "$said"' EXIT
for crate in "$@"; do
    if [ -e "$crate/src/main.rt" ]; then verb=run; else verb=lib; fi
    if ! (cd "$crate" && rt "$verb" </dev/null >"$said" 2>&1); then
        cat "$said" >&2
        echo "build.sh: $crate is not built" >&2
        exit 1
    fi
done
