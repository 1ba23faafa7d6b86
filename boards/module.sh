# module.sh, to be read by another script: compiles once more what was proved. `rt lib` compiles a static library and all that it
# stands on from one LLVM module, with the toolchain's own compiler.

kit=$(dirname "$(dirname "$(readlink -f "$(command -v rt)")")")
compiler=$kit/toolchain/bin/clang

# link_but FROM NAME TO: links to all that is in a folder but one name
link_but() {
    mkdir -p "$3"
    for file in "$1"/*; do
        if [ "${file##*/}" != "$2" ]; then ln -s "$file" "$3/"; fi
    done
}

# compile_again CRATE FOLDER ARGUMENT..: builds the crate's static library with a copy of the kit, made of links, whose compiler
# compiles the module as asked and then again with these arguments more; FOLDER/asked then has what was asked. rt takes the
# kit in which its own two files lie, so these are copied. The copy is outside the repository, where `rt ci` refuses links.
compile_again() {
    crate=$1 asked=$2/asked copy=$(mktemp -d)
    shift 2
    link_but "$kit" toolchain "$copy/kit"
    rm "$copy/kit/bin"
    link_but "$kit/bin" rt "$copy/kit/bin"
    rm "$copy/kit/bin/rtlib.py"
    cp "$kit/bin/rt" "$kit/bin/rtlib.py" "$copy/kit/bin"
    link_but "$kit/toolchain" bin "$copy/kit/toolchain"
    link_but "$kit/toolchain/bin" clang "$copy/kit/toolchain/bin"
    again=$copy/kit/toolchain/bin/clang
    printf '#!/bin/sh\nprintf "%%s\\n" "$@" >"%s"\n"%s" "$@" && "%s" "$@"' "$asked" "$compiler" "$compiler" >"$again"
    printf ' "%s"' "$@" >>"$again"
    chmod +x "$again"
    built=0
    (cd "crates/$crate" && "$copy/kit/bin/rt" lib >"$copy/said" 2>&1) || built=$?
    if [ $built -ne 0 ]; then cat "$copy/said" >&2; fi
    rm -rf "$copy"
    return $built
}

# anew CRATE FOLDER ARGUMENT..: builds the static library, kept as FOLDER/libCRATE.a, and compiles it again, if the last time
# it was another
anew() {
    made=crates/$1/out/lib$1.a kept=$2/lib$1.a
    sh tools/build.sh "$1"
    if ! cmp -s "$made" "$kept"; then
        rm -f "$kept"
        cp "$made" "$2/made.a"
        compile_again "$@"
        mv "$2/made.a" "$kept"
    fi
}
