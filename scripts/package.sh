#!/usr/bin/env bash
# SPDX-License-Identifier: BSD-2-Clause OR GPL-2.0-or-later
# The package as one who adopts it meets it: one version and a licence everywhere; made, installed into an empty folder, found by
# pkg-config, linked with a loader in C and C++, run, and uninstalled, for this machine and for the other processors; and what is in Rust
# built by Debian's own cargo.
# What is not installed on this machine is left out, and the line that begins with "package: skipped" says so.
set -euo pipefail
cd "$(dirname "$0")/.."
host=$(uname -m)
version=$(./scripts/version.sh)
work=$(mktemp -d)
trap 'rm -rf "$work"' EXIT
root=$work/root

say() { echo "package: $*"; }

fail() {
    echo "package.sh: $*" >&2
    exit 1
}

have() { command -v "$1" >/dev/null; }

# Two texts are the same: WHAT EXPECTED FOUND
same() {
    diff <(echo "$2") <(echo "$3") >&2 || fail "$1 differs: '<' is expected, '>' was found"
}

# ---- one version, and licences

check_statements() {
    ./scripts/version.sh --check
    if git rev-parse --is-inside-work-tree >/dev/null 2>&1; then
        ./scripts/spdx.sh
    else
        say "skipped: SPDX lines (git does not know these files)"
    fi
}

# ---- installing

# What is installed for a target, each file with its mode: TARGET
files_of() {
    local lib=usr/lib
    [ "$1" = "$host" ] || lib=usr/lib/sunderwath/$1
    {
        printf '644 %s\n' "$lib/libsunderwath.a" "$lib/pkgconfig/sunderwath.pc" usr/include/sunderwath.h \
            usr/share/sunderwath/sunderwath_text.c usr/share/doc/sunderwath/LICENSE usr/share/doc/sunderwath/GPL-2.0.txt
        [ "$1" != riscv64 ] || printf '644 %s\n' "$lib/rv64imac/libsunderwath.a" "$lib/rv64imac/pkgconfig/sunderwath.pc"
        [ "$1" != "$host" ] || printf '%s\n' '755 usr/bin/sunderwath' '644 usr/share/man/man1/sunderwath.1' \
            '644 usr/share/sunderwath/schema.json'
    } | sort
}

installed() { find "$root" ! -type d -printf '%m %P\n' | sort; }

# Runs make for a target without rt and cargo: each is a program that leaves a mark and fails. TARGET GOAL
make_without_tools() {
    local tool
    mkdir -p "$work/refusing"
    for tool in rt cargo; do
        printf '#!/bin/sh\necho "%s was called" >>"%s"\nexit 1\n' "$tool" "$work/called" >"$work/refusing/$tool"
        chmod +x "$work/refusing/$tool"
    done
    PATH=$work/refusing:$PATH make TARGET="$1" "$2" DESTDIR="$root" PREFIX=/usr
    [ ! -e "$work/called" ] || fail "make $2 for $1: $(cat "$work/called")"
}

# Installs into the empty folder; what make has built is not built again: TARGET
install_for() {
    local stamps='target/archive/*/libsunderwath.a target/archive/*/*/libsunderwath.a target/cli/release/sunderwath' before
    make -j2 TARGET="$1"
    # shellcheck disable=SC2086
    before=$(stat -c '%n %y' $stamps)
    make_without_tools "$1" install
    make_without_tools "$1" install
    # shellcheck disable=SC2086
    same "what make install finds built" "$before" "$(stat -c '%n %y' $stamps)"
    same "the list of files for $1" "$(files_of "$1")" "$(installed)"
}

# Nothing is left, and no folder of the package's own: TARGET
uninstall_for() {
    make_without_tools "$1" uninstall
    same "what make uninstall leaves for $1" "" "$(installed)"
    same "folders that make uninstall leaves for $1" "" "$(find "$root" -name '*sunderwath*')"
}

# ---- using what is installed

# pkg-config on the package in the folder: TARGET ARGUMENTS
config() {
    local lib=$root/usr/lib
    [ "$1" = "$host" ] || lib=$lib/sunderwath/$1
    shift
    PKG_CONFIG_PATH=$lib/pkgconfig pkg-config --define-variable=prefix="$root/usr" "$@" sunderwath
}

# Builds the loader with the installed files alone: TARGET PROGRAM COMPILER WITH OPTIONS
build_loader() {
    local target=$1 program=$2 flags text libs
    shift 2
    flags=$(config "$target" --cflags)
    text=$(config "$target" --variable=textfile)
    libs=$(config "$target" --libs)
    # shellcheck disable=SC2086
    "$@" -Wall -Wextra -Werror $flags "$work/loader.c" "$text" -x none $libs -o "$program"
}

# A loader's output on the accepted and on the refused board: PROGRAM WITH ARGUMENTS
run_loader() {
    "$@" "$work/board.dtb"
    "$@" "$work/refused.dtb" 2>&1 || echo "exit status $?"
}

# What examples/expected.txt has of the two boards.
expected_of_loader() {
    sed -n -e '/^# number=0 .* count=2$/,/^mpidr 0x0: /p' -e '/^# number=12 /,/^exit status/p' examples/expected.txt
}

prepare() {
    cp examples/loader.c "$work/loader.c"
    dtc -q -I dts -O dtb -o "$work/board.dtb" boards/whole-case.dts
    dtc -q -I dts -O dtb -o "$work/refused.dtb" boards/refused-12-reg.dts
    [ "$(expected_of_loader | wc -l)" -eq 9 ] || fail "examples/expected.txt has other lines for the loader"
}

use_library() {
    local language
    pkg-config --validate "$root/usr/lib/pkgconfig/sunderwath.pc"
    same "the version of pkg-config" "$version" "$(config "$host" --modversion)"
    build_loader "$host" "$work/loader-c" gcc -std=c99 -pedantic -x c
    build_loader "$host" "$work/loader-c++" g++ -std=c++11 -pedantic -x c++
    for language in c c++; do
        same "the loader in $language" "$(expected_of_loader)" "$(run_loader "$work/loader-$language")"
    done
}

# The same rows as the loader's: place, MPIDR and slot of each processor.
use_command() {
    local command=$root/usr/bin/sunderwath status=0
    same "the version of the command line" "$version" "$("$command" --version | awk '{ print $NF }')"
    same "the rows of the command line" "$("$work/loader-c" "$work/board.dtb" | grep '^[0-9]' | cut -d, -f3-)" \
        "$("$command" -p "$work/board.dtb" | grep -v '^#' | cut -d, -f3-)"
    "$command" "$work/refused.dtb" 2>"$work/told" || status=$?
    [ "$status" -eq 1 ] || fail "the command line ends with $status: $(cat "$work/told")"
    grep -q 'ERROR 12 (cpu_reg)' "$work/told" || fail "the command line tells something else: $(cat "$work/told")"
}

read_manual() {
    local page=$root/usr/share/man/man1/sunderwath.1
    if have man; then
        LC_ALL=C.UTF-8 MANROFFSEQ='' MANWIDTH=80 man --warnings -l "$page" >"$work/manual" 2>"$work/warnings"
    elif have groff; then
        groff -man -ww -Tutf8 "$page" >"$work/manual" 2>"$work/warnings"
    else
        say "skipped: the manual page (neither man nor groff is installed)"
        return
    fi
    same "warnings about the manual page" "" "$(cat "$work/warnings")"
    grep -q "sunderwath $version" "$work/manual" || fail "the manual page is not that of $version"
}

# ---- the other processors

# What readelf tells of an archive: MACHINE ABI ARCHIVE
is_for() {
    readelf -h "$3" >"$work/elf"
    grep -qE "Machine: +$1$" "$work/elf" || fail "$3 is not for $1: $(grep Machine "$work/elf")"
    grep -qE "Flags: .*$2" "$work/elf" || fail "$3 has not the flags $2: $(grep Flags "$work/elf")"
}

check_archives() {
    local lib=$root/usr/lib/sunderwath/$1
    case $1 in
    x86_64) is_for 'Advanced Micro Devices X86-64' 0x0 "$lib/libsunderwath.a" ;;
    aarch64) is_for AArch64 0x0 "$lib/libsunderwath.a" ;;
    riscv64)
        is_for RISC-V 'double-float ABI' "$lib/libsunderwath.a"
        is_for RISC-V 'soft-float ABI' "$lib/rv64imac/libsunderwath.a"
        ;;
    esac
}

# The loader, linked by the processor's compiler and run: TARGET
use_target() {
    local compiler=$1-linux-gnu-gcc emulator=qemu-$1
    if ! have "$compiler" || ! have "$emulator"; then
        say "skipped: the loader for $1 ($compiler or $emulator is not installed)"
        return
    fi
    build_loader "$1" "$work/loader-$1" "$compiler" -std=c99 -static -x c
    same "the loader for $1" "$(expected_of_loader)" "$(run_loader "$emulator" "$work/loader-$1")"
}

# Two targets beside each other: what they share stays until the last one goes.
side_by_side() {
    install_for "$host"
    make TARGET=riscv64 install DESTDIR="$root" PREFIX=/usr
    make TARGET=riscv64 uninstall DESTDIR="$root" PREFIX=/usr
    same "what is left of $host" "$(files_of "$host")" "$(installed)"
    uninstall_for "$host"
    say "riscv64 uninstalled beside $host, which stays whole"
}

# ---- Debian's own cargo

# Builds one crate's programs and tests without warnings, as quickly as may be: FOLDER OPTIONS
debian_build() {
    local folder=$1
    shift
    PATH=/usr/bin:/bin RUSTFLAGS='-D warnings' CARGO_PROFILE_DEV_OPT_LEVEL=0 CARGO_PROFILE_DEV_DEBUG=0 \
        cargo build --offline --quiet --manifest-path "$folder/Cargo.toml" --target-dir target/debian "$@"
}

build_with_debian() {
    if [ ! -x /usr/bin/cargo ]; then
        say "skipped: Debian's own cargo (/usr/bin/cargo is not there)"
        return
    fi
    [ ! -d rust ] || debian_build rust --all-targets
    debian_build cli --all-targets
    debian_build tests --all-targets
    say "built without warnings by Debian's $(PATH=/usr/bin:/bin rustc --version)"
}

check_statements
prepare
install_for "$host"
use_library
use_command
read_manual
uninstall_for "$host"
say "$version installed for $host, used by pkg-config from C and C++, uninstalled"
for target in x86_64 aarch64 riscv64; do
    [ "$target" != "$host" ] || continue
    install_for "$target"
    check_archives "$target"
    use_target "$target"
    uninstall_for "$target"
    say "$version installed for $target, uninstalled"
done
[ "$host" = riscv64 ] || side_by_side
build_with_debian
