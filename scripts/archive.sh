#!/usr/bin/env bash
# SPDX-License-Identifier: BSD-2-Clause OR GPL-2.0-or-later
# The library for a processor: archive.sh [x86_64|aarch64|riscv64]... (x86_64 where none is named)
#
# Proves the library and writes target/archive/TARGET/libsunderwath.a, all of one module that the proved code was lowered to:
#   x86_64   as the kit compiles it for every processor of that kind
#   aarch64  for bare metal: general registers only, no misaligned access
#   riscv64  rv64gc with the ABI lp64d, which runs under Linux too, and in riscv64/rv64imac/ the same for rv64imac with the ABI lp64; no
#            misaligned access
# What has not changed since is not made again.
set -euo pipefail
cd "$(dirname "$0")/.."
out=target/archive
module=$out/module.bc

fail() {
    echo "archive.sh: $*" >&2
    exit 2
}

# ---- the kit

command -v rt >/dev/null || fail "the Rattle kit is needed: 'rt' is not on the PATH"
kit=$(dirname "$(dirname "$(readlink -f "$(command -v rt)")")")
clang=$kit/toolchain/bin/clang
[ -x "$clang" ] || fail "the kit at $kit has no compiler for this machine"

# ---- what changed

# The crates that the library is made of.
dependencies() { sed -n 's/^sunderwath staticlib: *//p' crates.txt; }

# One line for all that the module is made of: the kit, the crates, and this script.
inputs() {
    {
        cat "$kit/KIT-ID"
        # shellcheck disable=SC2046
        find $(dependencies | tr ' ' '\n' | sed 's,^,crates/,') crates/sunderwath -regex 'crates/[^/]*/out' -prune -o \
            -type f -not -path '*/must-fail/*' -print0 | sort -z | xargs -0 sha256sum
        sha256sum crates.txt scripts/archive.sh
    } | sha256sum | cut -d' ' -f1
}

# Whether what is asked for was made of these inputs: TARGET
is_current() {
    [ -f "$out/$1/libsunderwath.a" ] && [ "$(cat "$out/$1/inputs" 2>/dev/null)" = "$sum" ] || return 1
    [ "$1" != riscv64 ] || [ -f "$out/riscv64/rv64imac/libsunderwath.a" ]
}

# ---- the module, and the archive for x86-64

# A toolchain as `rattle build --toolchain` takes it: the kit's, with a clang that keeps the module before it compiles it. It is made of
# links, which `rt ci` refuses in a checkout, so it stands outside: FOLDER
keeping_toolchain() {
    mkdir "$1/bin"
    ln -s "$kit/toolchain/lib" "$1/lib"
    ln -s "$kit/toolchain/bin/"* "$1/bin/"
    rm "$1/bin/clang"
    cat >"$1/bin/clang" <<SCRIPT
#!/bin/sh
for word; do
    case \$word in *.bc) cp -- "\$word" "$PWD/$module" || exit ;; esac
done
exec "$clang" "\$@"
SCRIPT
    chmod +x "$1/bin/clang"
}

# The options that name these crates, one to a line, as seen from a crate's folder.
externs() {
    local name
    printf '%s\n' "--extern=std=$kit/rlibs/std.rlib" "-Ldependency=$kit/rlibs"
    for name in $(dependencies); do
        printf '%s\n' "--extern=$name=../$name/out/rlib/$name.rlib" "-Ldependency=../$name/out/rlib"
    done
}

# What `rt lib` calls for the library, whose crates it has proved and built, with another toolchain: TOOLCHAIN ARCHIVE
build_keeping() {
    local words
    mapfile -t words < <(externs)
    cd crates/sunderwath
    "$kit/bin/rattle" build --crate-name sunderwath src/lib.rt "${words[@]}" --antt-project "$kit/rattle/logic/antt-project.json" \
        --logic-built "$kit/logic_built" --incremental out/incremental --links sunderwath= --crate-type staticlib --cpu x86-64 \
        --toolchain "$1" --backend llvm -o "$2"
}

# Keeps the whole output of the kit as a log, and shows the lines that say what is proved: LOG
progress() {
    tee "$1" | { grep --line-buffered -E '^rt: |not proved|error' || true; }
}

# Proves and builds the library, unless that is done.
build() {
    rm -f "$out"/*/inputs "$module"
    mkdir -p "$out/x86_64"
    echo "proving the library, once: this takes some minutes"
    (cd crates/sunderwath && rt lib --cpu x86-64) 2>&1 | progress "$out/check.log" || fail "not proved: see $out/check.log"
    toolchain=$(mktemp -d)
    trap 'rm -r "$toolchain"' EXIT
    keeping_toolchain "$toolchain"
    (build_keeping "$toolchain" "$PWD/$out/x86_64/libsunderwath.a") 2>&1 | progress "$out/build.log" ||
        fail "not built: see $out/build.log"
    grep -q '^logic=proved ' "$out/build.log" || fail "the library is not proved: see $out/build.log"
    ! grep -q '^logic=proved .*foreign=' "$out/build.log" || fail "the library declares C functions of its own"
    echo "rt: sunderwath proved, $out/x86_64/libsunderwath.a written"
    echo "$sum" >"$out/x86_64/inputs"
}

# ---- other processors

# The module as text for another processor: its triple, the data layout that the compiler has for it, no attribute that names a processor
# of x86-64. RISC-V's calling convention has a returned number of 32 bits extended by its sign, and a jump table there would hold absolute
# addresses: TRIPLE
module_for() {
    local extend='s/^(define [^@]*)i32 @sunderwath_/\1signext i32 @sunderwath_/'
    local no_tables='s/^attributes #[0-9]+ = \{/& "no-jump-tables"="true"/'
    case $1 in riscv64*) ;; *) extend='' no_tables='' ;; esac
    "$clang" -Wno-override-module -x ir "$module" -S -emit-llvm -o - | sed -E \
        -e '/^target datalayout = /d' \
        -e "s/^target triple = .*/target triple = \"$1\"/" \
        -e 's/ "(target-cpu|target-features|tune-cpu)"="[^"]*"//g' \
        -e "$extend" \
        -e "$no_tables"
}

# Compiles the module: FOLDER TRIPLE OPTIONS
compile() {
    local folder=$out/$1 triple=$2
    shift 2
    mkdir -p "$folder"
    rm -f "$folder/libsunderwath.a"
    module_for "$triple" >"$folder/module.ll"
    "$clang" --target="$triple" "$@" -Wno-override-module -ffunction-sections -fdata-sections -O3 -c -x ir "$folder/module.ll" \
        -o "$folder/sunderwath.o"
    "$kit/toolchain/bin/llvm-ar" crsD "$folder/libsunderwath.a" "$folder/sunderwath.o"
    rm "$folder/sunderwath.o"
}

compile_for() {
    case $1 in
    aarch64) compile aarch64 aarch64-none-elf -mgeneral-regs-only -mstrict-align ;;
    riscv64)
        compile riscv64/rv64imac riscv64-unknown-elf -march=rv64imac -mabi=lp64 -mcmodel=medany -mstrict-align
        compile riscv64 riscv64-unknown-elf -march=rv64gc -mabi=lp64d -mcmodel=medany -mstrict-align
        ;;
    esac
    echo "$sum" >"$out/$1/inputs"
}

[ $# -gt 0 ] || set -- x86_64
for target; do
    case $target in
    x86_64 | aarch64 | riscv64) ;;
    *) fail "no archive for '$target': x86_64, aarch64 or riscv64" ;;
    esac
done
sum=$(inputs)
is_current x86_64 && [ -f "$module" ] || build
for target; do
    is_current "$target" || compile_for "$target"
done
