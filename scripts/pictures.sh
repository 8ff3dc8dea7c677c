#!/usr/bin/env bash
# SPDX-License-Identifier: BSD-2-Clause OR GPL-2.0-or-later
#
# The pictures of docs/pictures: pictures.sh [--check]
# board.svg (and board.json) from what the command line prints of a board, layers.svg from layers.txt, crates.txt and the header's numbers.
# With --check nothing is written; it fails where a file is not what would be written.
set -euo pipefail
cd "$(dirname "$0")/.."
board=boards/three-levels.dts
folder=docs/pictures
out=target/pictures

case ${1-} in
'' | --check) ;;
*)
    echo "Usage: pictures.sh [--check]" >&2
    exit 2
    ;;
esac

./scripts/archive.sh x86_64
cargo build --offline --quiet --release --manifest-path cli/Cargo.toml --target-dir target/cli
mkdir -p "$out"
target/cli/release/sunderwath --json "$board" >"$out/printed.json"
python3 -B "$folder/draw.py" "$board" "$out/printed.json" "$out"
for name in board.json board.svg layers.svg; do
    if [ $# -eq 0 ]; then
        cp "$out/$name" "$folder/$name"
    elif ! cmp "$out/$name" "$folder/$name"; then
        echo "pictures.sh: $folder/$name is not current: run scripts/pictures.sh" >&2
        exit 1
    fi
done
