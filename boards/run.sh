#!/bin/sh
# run.sh: builds the board library for small 32-bit processors from the module that was proved, runs the examples and a
# stream of actions on emulated ones, and compares what they print with x86-64. Ends with a line for each target and "same".
# LEVEL is the compiler's: -O3, the toolchain's own, or -Os for less code. All that is made is in target/boards.
set -eu
cd "$(dirname "$0")/.."
work=$PWD/target/boards
level=${LEVEL:--O3}
. boards/module.sh

# choose TARGET: the processor's words for the compilers, where its code and its memory are, its emulator, and the MHz of the
# clock that it has there
choose() {
    target=$1
    case $target in
        cortex-m0) triple=thumbv6m-none-eabi processor=-mcpu=cortex-m0 machine=microbit clock=16 ;;
        cortex-m3) triple=thumbv7m-none-eabi processor=-mcpu=cortex-m3 machine=mps2-an385 clock=25 ;;
        rv32) triple=riscv32-unknown-elf processor="-march=rv32imac -mabi=ilp32" machine=virt clock=1000 ;;
    esac
    case $target in
        cortex-*)
            tool=arm-none-eabi library="-mthumb --specs=nano.specs"
            code_at=0 memory_at=0x20000000 emulator=qemu-system-arm
            ;;
        rv32)
            tool=riscv64-unknown-elf library="--specs=picolibc.specs"
            code_at=0x80000000 memory_at=0x80100000 emulator="qemu-system-riscv32 -bios none"
            ;;
    esac
    folder=$work/$target
}

# needs PACKAGE COMMAND..: a package without which this command does not succeed
needs() {
    package=$1
    shift
    "$@" >/dev/null 2>&1 || missing="$missing $package"
}

# found TOOL FILE: the compiler's library has this file
found() { [ -e "$("$1-gcc" -print-file-name="$2")" ]; }

packages() {
    missing=
    needs gcc-arm-none-eabi arm-none-eabi-gcc --version
    needs libnewlib-arm-none-eabi found arm-none-eabi libc_nano.a
    needs qemu-system-arm qemu-system-arm --version
    needs gcc-riscv64-unknown-elf riscv64-unknown-elf-gcc --version
    needs picolibc-riscv64-unknown-elf found riscv64-unknown-elf picolibc.specs
    needs qemu-system-misc qemu-system-riscv32 --version
    [ -z "$missing" ] && return
    echo "missing, to be installed by: apt-get install$missing" >&2
    exit 1
}

# The proved module as text. It says the same: compiled as was asked of the module, it is the object in the archive.
module() {
    anew board_c "$work" -Wno-unused-command-line-argument -S -emit-llvm -Xclang -disable-llvm-passes -o "$work/module.ll"
    sed "s|^.*\.bc\$|$work/module.ll|; s|^.*\.o\$|$work/module.o|" "$work/asked" | xargs -d '\n' "$compiler"
    ar p "$work/libboard_c.a" | cmp - "$work/module.o"
}

# The module for the target: triple, data layout and processor are those that the compiler gives a function of C, and
# nothing else differs.
retarget() {
    echo 'void f(void) {}' >"$folder/like.c"
    "$compiler" --target=$triple $processor "$level" -S -emit-llvm "$folder/like.c" -o "$folder/like.ll"
    layout=$(grep '^target datalayout' "$folder/like.ll")
    named=$(grep '^target triple' "$folder/like.ll")
    features=$(grep -o '"target-cpu"="[^"]*" "target-features"="[^"]*"' "$folder/like.ll")
    sed "s|^target datalayout.*|$layout|; s|^target triple.*|$named|; s|\"target-cpu\"=\"[^\"]*\"|$features|" \
        "$work/module.ll" >"$folder/module.ll"
    unlike "$work/module.ll" >"$folder/before"
    unlike "$folder/module.ll" >"$folder/after"
    cmp "$folder/before" "$folder/after"
}

# unlike MODULE: all of it but for these words, in which the targets differ
unlike() { sed '/^target /d; s/ "target-[a-z]*"="[^"]*"//g' "$1"; }

# The library, by the toolchain's compiler with what was asked of it but for the target's words and the level. The compiler must
# have nothing to say: a processor that it does not know is no error to it.
library() {
    sed "/^--target=/d; /^--sysroot=/d; /^-march=/d; /^-fPIC\$/d; /^-O[0-9]\$/d; s|^.*\.bc\$|$folder/module.ll|
        s|^.*\.o\$|$folder/board_c.o|" "$work/asked" >"$folder/asked"
    printf '%s\n' --target=$triple $processor "$level" -fstack-usage >>"$folder/asked"
    xargs -d '\n' "$compiler" <"$folder/asked" 2>"$folder/said" || true
    if [ -s "$folder/said" ]; then
        cat "$folder/said" >&2
        exit 1
    fi
    rm -f "$folder/libboard_c.a"
    "$tool-ar" rcs "$folder/libboard_c.a" "$folder/board_c.o"
    "$tool-readelf" -rW "$folder/board_c.o" >"$folder/relocations"
    awk -f boards/stack.awk "$folder/module.ll" "$folder/board_c.su" "$folder/relocations" >"$folder/stack"
}

# emulate NAME SOURCE [WORD..]: what the program prints on the target's processor; words for the emulator may follow
emulate() {
    name=$1 source=$2
    shift 2
    "$tool-gcc" $processor $library -std=gnu99 -O2 -Wall -Wextra -Werror -ffunction-sections -Iinclude -nostartfiles \
        -Wl,--gc-sections,-z,noexecstack,--defsym=code_at=$code_at,--defsym=memory_at=$memory_at -T boards/board.ld \
        -DCLOCK=$clock boards/start.c "$source" "$folder/libboard_c.a" -o "$folder/$name" &&
    timeout 300 $emulator -M $machine -display none -serial null -monitor none "$@" \
        -semihosting-config enable=on,target=native -kernel "$folder/$name" >"$folder/$name.out"
}

# compare NAME SOURCE EXPECTED
compare() {
    if ! emulate "$1" "$2" || ! diff "$3" "$folder/$1.out"; then
        echo "$target: $1 differs" >&2
        exit 1
    fi
}

# The target's line.
tell() {
    code=$("$tool-size" -A "$folder/board_c.o" | awk '$1 ~ /^\.(text|rodata)/ { sum += $2 } END { print sum }')
    outside=$("$tool-nm" -u "$folder/board_c.o" | awk '{ printf " %s", $2 }')
    deepest=$(awk '$2 > most { most = $2 } END { print most }' "$folder/stack")
    record=$(sed -n 's/^bytes //p' "$folder/edges.out")
    echo "$target: code $code bytes, stack $deepest, record $record, needs$outside: same as x86-64"
}

packages
mkdir -p "$work/x86-64"
module
"${CC:-cc}" -std=c99 -O2 -Wall -Wextra -pedantic -Werror -Iinclude boards/stream.c "$work/libboard_c.a" \
    -o "$work/x86-64/stream"
"$work/x86-64/stream" >"$work/x86-64/stream.out"
for board in cortex-m0 cortex-m3 rv32; do
    choose $board
    mkdir -p "$folder"
    retarget
    library
    for example in two_boards edges other_candidate; do
        compare $example "examples/$example.c" "examples/$example.expected"
    done
    compare stream boards/stream.c "$work/x86-64/stream.out"
    emulate cost boards/cost.c -icount shift=0
    tell >"$folder/line"
done
grep -v '^actions' "$work/x86-64/stream.out"
cat "$work"/*/line
echo same
