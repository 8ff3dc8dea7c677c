#!/usr/bin/env bash
# SPDX-License-Identifier: BSD-2-Clause OR GPL-2.0-or-later
# Makes sure that what the other scripts call is there: the Rattle kit, and some of Debian's packages.
#   setup.sh show              what proving and building the library and showing a board needs
#   setup.sh aarch64|riscv64   what building and booting the firmware for that processor needs
#   setup.sh test              what all tests need
# Missing packages are installed; who is not root is told which they are.
set -euo pipefail

if ! command -v rt >/dev/null; then
    echo "The Rattle kit is needed: 'rt' is not on the PATH." >&2
    exit 2
fi

missing=()

# The packages are needed where there is no such command: COMMAND PACKAGE...
need() {
    command -v "$1" >/dev/null || missing+=("${@:2}")
}

for_showing() {
    need gcc gcc libc6-dev
    need cargo cargo
    need dtc device-tree-compiler
}

for_aarch64() {
    need make make
    need aarch64-linux-gnu-gcc gcc-aarch64-linux-gnu libc6-dev-arm64-cross
    need qemu-system-aarch64 qemu-system-arm
}

for_riscv64() {
    need make make
    need riscv64-linux-gnu-gcc gcc-riscv64-linux-gnu libc6-dev-riscv64-cross
    need qemu-system-riscv64 qemu-system-misc
}

# Debian's own cargo is tried beside another one.
for_testing() {
    for_showing
    for_aarch64
    for_riscv64
    need g++ g++
    need /usr/bin/cargo cargo
    need valgrind valgrind
    need python3 python3
    need pkg-config pkg-config
    need groff groff-base
    need qemu-aarch64 qemu-user
}

install_missing() {
    [ ${#missing[@]} -gt 0 ] || return 0
    if [ "$(id -u)" -ne 0 ] || ! command -v apt-get >/dev/null; then
        echo "These packages of Debian are needed, and only root can install them:" >&2
        echo "  apt-get install ${missing[*]}" >&2
        exit 2
    fi
    echo "installing: ${missing[*]}" >&2
    apt-get update -qq >&2
    DEBIAN_FRONTEND=noninteractive apt-get install -y -qq --no-install-recommends "${missing[@]}" >&2
}

case ${1:-} in
show) for_showing ;;
aarch64) for_aarch64 ;;
riscv64) for_riscv64 ;;
test) for_testing ;;
*)
    echo "usage: setup.sh show|aarch64|riscv64|test" >&2
    exit 2
    ;;
esac
install_missing
