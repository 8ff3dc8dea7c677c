#!/usr/bin/env bash
# SPDX-License-Identifier: BSD-2-Clause OR GPL-2.0-or-later
# What the README shows of a board of boards/ is what the command line prints: each `$ ./scripts/show.sh boards/...` with the lines under
# it. Needs target/cli/debug/sunderwath.
set -euo pipefail
cd "$(dirname "$0")/.."
command=$PWD/target/cli/debug/sunderwath
work=$(mktemp -d)
trap 'rm -rf "$work"' EXIT

# Each block of the README that begins so, as a file: its first line the words behind show.sh, then what is shown.
awk -v folder="$work" '
    /^```/ { inside = 0; next }
    /^\$ \.\/scripts\/show\.sh boards\// { file = sprintf("%s/%02d", folder, ++count); inside = 1; print substr($0, 21) >file; next }
    inside { print >file }' README.md

shown=0
for block in "$work"/*; do
    read -r -a words <"$block"
    tail -n +2 "$block" >"$work/expected"
    "$command" "${words[@]}" >"$work/found" 2>&1 || true
    diff "$work/expected" "$work/found" || { echo "README.md: ${words[*]} prints something else" >&2; exit 1; }
    rm "$work/expected" "$work/found"
    shown=$((shown + 1))
done
[ "$shown" -ge 4 ] || { echo "README.md shows $shown boards" >&2; exit 1; }
echo "README: $shown boards are shown as the command line prints them"
