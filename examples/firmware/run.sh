#!/bin/sh
# SPDX-License-Identifier: BSD-2-Clause OR GPL-2.0-or-later
#
# run.sh aarch64|riscv64 IMAGE [QEMU OPTIONS]: boots an image on QEMU's virt machine. The UART is standard output, the program's
# status the exit status, 124 where it has not ended after 20 seconds.
set -eu
arch=$1 image=$2
shift 2
case $arch in
aarch64) set -- -M virt,gic-version=3 -cpu cortex-a53 -semihosting "$@" ;;
riscv64) set -- -M virt -bios none "$@" ;;
*)
    echo "run.sh: no machine for '$arch': aarch64 or riscv64" >&2
    exit 2
    ;;
esac
exec timeout 20 "qemu-system-$arch" -nographic -no-reboot -nic none -kernel "$image" "$@" </dev/null
