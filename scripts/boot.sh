#!/usr/bin/env bash
# SPDX-License-Identifier: BSD-2-Clause OR GPL-2.0-or-later
#
# Proves the library where that is not done, builds it and examples/firmware, boots it under QEMU and shows what it says on the UART:
#   boot.sh [aarch64|riscv64] [PROCESSORS] [OPTIONS OF QEMU]
#   boot.sh aarch64 8,sockets=2,clusters=2,cores=1,threads=2
#   boot.sh aarch64 4 -M virt-6.1
# PROCESSORS is what QEMU's -smp takes, 4 where none is named. Exit status: 0 rows, 1 a refusal, 2 rows without the own processor's,
# 3 an exception; 4 where something is missing.
set -euo pipefail
top=$(cd "$(dirname "$(readlink -f "$0")")/.." && pwd)
arch=${1:-aarch64} processors=${2:-4}
case $arch in
aarch64 | riscv64) ;;
*)
    echo "boot.sh: no machine for '$arch': aarch64 or riscv64" >&2
    exit 4
    ;;
esac
"$top/scripts/setup.sh" "$arch" || exit 4
"$top/scripts/archive.sh" "$arch" >&2 || exit 4
make --silent -C "$top/examples/firmware" ARCH="$arch" >&2 || exit 4
exec "$top/examples/firmware/run.sh" "$arch" "$top/target/firmware/$arch/firmware.elf" -smp "$processors" "${@:3}"
