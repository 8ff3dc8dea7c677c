#!/usr/bin/env bash
# SPDX-License-Identifier: BSD-2-Clause OR GPL-2.0-or-later
# What firmware links with: symbols.sh [ARCHIVE SYMBOL...] (the archive for x86-64, which needs memset, where none is named)
#
# The archive is one object that needs these symbols alone, has no data and no bss, and exports the calls of the header and nothing else.
# It has no absolute address in it, so that it can be part of a program that is loaded anywhere. On aarch64 and riscv64 no instruction of it
# needs a unit for floats or vectors, and on riscv64 each call extends the number that it returns by its sign, as the calling convention
# there has it. The texts beside the archive need nothing.
set -euo pipefail
cd "$(dirname "$0")/.."
[ $# -gt 0 ] || set -- target/archive/x86_64/libsunderwath.a memset
archive=$1
shift
may_need=$(printf '%s\n' "$@" | sort -u)
mkdir -p target/c
text=target/c/sunderwath_text.o
bad=0

# Complains where two lists of names differ: WHAT EXPECTED FOUND
same() {
    if [ "$2" != "$3" ]; then
        echo "$archive: $1:" >&2
        diff <(echo "$2") <(echo "$3") | sed -nE 's/^< (.+)/expected, not found: \1/p; s/^> (.+)/found, not expected: \1/p' >&2 || true
        bad=1
    fi
}

# Names of symbols, one to a line: `nm -P` gives a line for each, besides those that name a member. TOOLS FILE
needed() { "$1nm" -P --undefined-only "$2" | awk 'NF > 1 { print $1 }' | sort -u; }
offered() { "$1nm" -P --extern-only --defined-only "$2" | awk 'NF > 1 { print $1 }' | sort -u; }

# Bytes of data and of bss in all members: TOOLS FILE
writable() { "$1size" "$2" | awk 'NR > 1 { data += $2; bss += $3 } END { print data + 0, "data,", bss + 0, "bss" }'; }

# Bytes of instructions in all members: TOOLS FILE
code() { "$1size" -A "$2" | awk '/^\.text/ { bytes += $2 } END { print bytes + 0 }'; }

# Every function that the header declares, by what the compiler sees of it.
declared() { gcc -E -P include/sunderwath.h | grep -oE 'sunderwath_[a-z0-9_]+ *\(' | tr -d ' (' | sort -u; }

# The instructions with their operands, without the addresses that branches go to and without comments: TOOLS FILE
instructions() {
    "$1objdump" -d --no-show-raw-insn "$2" | sed -nE 's/^ *[0-9a-f]+:[[:space:]]+//p' |
        sed -E 's,[[:space:]]*(//|#[[:space:]]).*,,; s/[0-9a-f]+ <[^>]*>//g'
}

# Those that name a register of floats or vectors on aarch64, and the floating-point ones of riscv64. A program that finds none is what is
# wanted, so grep's status is not.
of_vectors() { instructions "$@" | grep -E '[[:space:],{[][bhsdqv][0-9]+([],.}[:space:]]|$)' || true; }
of_floats() { instructions "$@" | grep -E '^(c\.)?f' | grep -vE '^fence' || true; }

# Relocations that put an absolute address into code or data, besides those of debugging: TOOLS FILE
absolute() {
    "$1readelf" -rW "$2" | awk '/^Relocation section/ { debug = /debug|eh_frame/ } !debug { print $3 }' |
        grep -E '^R_(X86_64_(64|32|32S)|AARCH64_ABS(64|32|16)|RISCV_(64|32|HI20))$' | sort -u || true
}

# The calls of a module that return a number extended by its sign: FILE
extended() { sed -nE 's/^define .*signext i32 @(sunderwath_[a-z0-9_]+)\(.*/\1/p' "$1" | sort -u; }

[ -f "$archive" ] || { echo "$archive is not there" >&2; exit 1; }
machine=$(readelf -h "$archive" | sed -n 's/^ *Machine: *//p' | sort -u)
case $machine in
*X86-64) tools= ;;
AArch64) tools=aarch64-linux-gnu- ;;
RISC-V) tools=riscv64-linux-gnu- ;;
*) echo "$archive: an object for '$machine'" >&2; exit 1 ;;
esac
gcc -std=c99 -O2 -ffreestanding -Wall -Wextra -Werror -pedantic -c include/sunderwath_text.c -o "$text"
texts=$'sunderwath_check_name\nsunderwath_strerror'
calls=$(declared | grep -vxF "$texts")

same "members" 1 "$("${tools}ar" t "$archive" | wc -l)"
same "symbols that it needs" "$may_need" "$(needed "$tools" "$archive")"
same "symbols that it offers" "$calls" "$(offered "$tools" "$archive")"
same "bytes that are written" "0 data, 0 bss" "$(writable "$tools" "$archive")"
same "relocations to absolute addresses" "" "$(absolute "$tools" "$archive")"
case $machine in
AArch64) same "instructions on registers of floats or vectors" "" "$(of_vectors "$tools" "$archive")" ;;
RISC-V)
    same "floating-point instructions" "" "$(of_floats "$tools" "$archive")"
    same "calls that extend what they return" "$calls" "$(extended "$(dirname "$archive")/module.ll")"
    ;;
esac
same "symbols that the texts need" "" "$(needed "" "$text")"
same "symbols that the texts offer" "$texts" "$(offered "" "$text")"
same "bytes of the texts that are written" "0 data, 0 bss" "$(writable "" "$text")"

[ "$bad" -eq 0 ] || exit 1
echo "symbols: $archive: $(echo "$calls" | wc -l) calls, $(code "$tools" "$archive") bytes of code, needs ${may_need//$'\n'/ and }"
