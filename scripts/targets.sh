#!/usr/bin/env bash
# SPDX-License-Identifier: BSD-2-Clause OR GPL-2.0-or-later
# The archives for all processors: targets.sh
#
# Makes the archives, looks at what they need, and makes the same calls with each: natively on x86-64, under qemu-user on aarch64 and
# riscv64 (rv64gc with the ABI lp64d, and rv64imac with lp64 on a processor without a floating-point unit). What is given back and every
# byte that is lent have to be those that the second reader says, and so the same everywhere. Then the tests in C for the others too, with
# the stack that reading needs there.
set -euo pipefail
cd "$(dirname "$0")/.."
export LC_ALL=C
ulimit -c 0 # no file of a program that traps
archives=target/archive
vectors=target/vectors
strict=(-std=c11 -Wall -Wextra -Werror -pedantic -Iinclude)
bare=(-O2 -ffreestanding -fno-tree-loop-distribute-patterns -fno-stack-protector -nostdlib -static)
maker=(cargo run --offline --quiet --manifest-path tests/Cargo.toml --target-dir target/tests --bin make_vectors --)

fail() {
    echo "targets.sh: $*" >&2
    exit 1
}

for tool in rt cargo gcc aarch64-linux-gnu-gcc riscv64-linux-gnu-gcc qemu-aarch64 qemu-riscv64; do
    command -v "$tool" >/dev/null || fail "$tool is needed (Debian: gcc-aarch64-linux-gnu, gcc-riscv64-linux-gnu, qemu-user)"
done
mkdir -p "$vectors" target/c

# Starts a clock, and says how long it has been running.
start() { started=${EPOCHREALTIME/./}; }
took() { printf '%d.%d s' $(((${EPOCHREALTIME/./} - started) / 1000000)) $(((${EPOCHREALTIME/./} - started) / 100000 % 10)); }

# ---- the archives

symbols() {
    scripts/symbols.sh $archives/x86_64/libsunderwath.a memset
    scripts/symbols.sh $archives/aarch64/libsunderwath.a memset memcpy
    scripts/symbols.sh $archives/riscv64/libsunderwath.a memset memcpy
    scripts/symbols.sh $archives/riscv64/rv64imac/libsunderwath.a memset memcpy
}

# The archive for x86-64 is what the kit's own command writes.
as_the_kit_writes_it() {
    (cd crates/sunderwath && rt lib --cpu x86-64) >target/lib.log 2>&1 || { cat target/lib.log; exit 1; }
    cmp crates/sunderwath/out/libsunderwath.a $archives/x86_64/libsunderwath.a || fail "'rt lib --cpu x86-64' writes another archive"
    echo "x86_64: byte for byte what 'rt lib --cpu x86-64' writes"
}

# ---- the same calls everywhere

# Says where an output differs from what is expected: TARGET
differs() {
    local at
    at=$(cmp "$vectors/told.$1" "$vectors/expected" 2>&1 | tee /dev/stderr | sed -nE 's/.*: (byte|char) ([0-9]+),.*/\2/p') || true
    [ -z "$at" ] || "${maker[@]}" --at $((at - 1))
    fail "$1: not what the second reader says"
}

# Compiles the driver, runs it and compares: TARGET ARCHIVE COMPILER... -- RUNNER...
compare() {
    local target=$1 archive=$archives/$2/libsunderwath.a compiler=() program=$vectors/driver.$1
    shift 2
    while [ "$1" != -- ]; do
        compiler+=("$1")
        shift
    done
    shift
    "${compiler[@]}" "${strict[@]}" "${bare[@]}" tests/c/vectors.c "$archive" -o "$program"
    start
    "$@" "$program" <"$vectors/vectors" >"$vectors/told.$target" || fail "$target: the driver ends with status $?"
    cmp -s "$vectors/told.$target" "$vectors/expected" || differs "$target"
    echo "$target: $compared, all equal, $(took)"
    rm "$vectors/told.$target"
}

# ---- the tests in C

# The object for rv64imac, marked as one of the ABI lp64d: Debian has a C library for that one alone. No call takes or gives back a float,
# so for them both ABIs are the same, and the instructions stay as they are. Byte 48 of the file has the mark.
marked() {
    local object=$1
    riscv64-linux-gnu-ar p $archives/riscv64/rv64imac/libsunderwath.a >"$object"
    riscv64-linux-gnu-readelf -h "$object" | grep -q 'Flags: *0x1, RVC, soft-float ABI' || fail "$object: another mark than expected"
    printf '\5' | dd of="$object" bs=1 seek=48 conv=notrunc status=none
}

# Compiles and runs all of them: TARGET ARCHIVE COMPILER RUNNER
c_tests() {
    local target=$1 archive=$2 cross=$3 runner=$4 name log
    start
    for name in list_test plan_test board_test slots_test flat_test loader_test stack_test; do
        log=target/c/$name.$target.log
        "$cross" "${strict[@]}" -static "tests/c/$name.c" "$archive" -o "target/c/$name.$target"
        "$runner" "target/c/$name.$target" >"$log" 2>&1 || { cat "$log"; fail "$target: $name fails"; }
    done
    sed -nE "s/^largest ([0-9]+) bytes, (SUNDERWATH_[A-Z_]+) .*/$target: \\2 \\1/p" "$log" | sort -k2,2 -k3,3nr | sort -s -u -k2,2
    echo "$target: list_test plan_test board_test slots_test flat_test loader_test stack_test pass, $(took)"
}

# ---- all of it

echo "== the archives"
start
scripts/archive.sh x86_64 aarch64 riscv64
symbols
as_the_kit_writes_it
echo "-- $(took)"

echo "== vectors"
start
"${maker[@]}" "$vectors" | tee "$vectors/log"
compared=$(tail -n 1 "$vectors/log")
echo "-- $(took)"

echo "== the same calls on each processor"
compare x86_64 x86_64 gcc -- env
compare aarch64 aarch64 aarch64-linux-gnu-gcc -- qemu-aarch64
compare rv64gc riscv64 riscv64-linux-gnu-gcc -march=rv64gc -mabi=lp64d -- qemu-riscv64
compare rv64imac riscv64/rv64imac riscv64-linux-gnu-gcc -march=rv64imac -mabi=lp64 -- qemu-riscv64 -cpu rv64,f=off,d=off

echo "== the tests in C, and the stack that the calls need"
marked target/c/rv64imac.o
c_tests aarch64 $archives/aarch64/libsunderwath.a aarch64-linux-gnu-gcc qemu-aarch64
c_tests rv64gc $archives/riscv64/libsunderwath.a riscv64-linux-gnu-gcc qemu-riscv64
c_tests rv64imac target/c/rv64imac.o riscv64-linux-gnu-gcc qemu-riscv64
echo "targets: x86_64, aarch64, rv64gc and rv64imac equal; $SECONDS s in all"
