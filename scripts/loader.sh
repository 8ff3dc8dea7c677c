#!/usr/bin/env bash
# SPDX-License-Identifier: BSD-2-Clause OR GPL-2.0-or-later
# examples/loader.c, as C and as C++, beside the command line: on every board of boards/, read as each kind of board, they give the same
# rows and slots, or refuse it with the same number in the same words. Beside examples/read_flat.c: the same records and places. Then
# boards at the limits that only the loader's call has.
set -euo pipefail
cd "$(dirname "$0")/.."
archive=target/archive/x86_64/libsunderwath.a
command=target/cli/debug/sunderwath
out=target/c/loader-boards
mkdir -p "$out"

fail() {
    echo "loader.sh: $*" >&2
    exit 1
}

build() {
    local sources=(examples/loader.c include/sunderwath_text.c) strict=(-Wall -Wextra -Werror -pedantic -Iinclude)
    gcc -std=c99 "${strict[@]}" "${sources[@]}" "$archive" -o target/c/loader-c99
    gcc -std=c11 "${strict[@]}" "${sources[@]}" "$archive" -o target/c/loader-c11
    g++ -std=c++11 "${strict[@]}" -x c++ "${sources[@]}" -x none "$archive" -o target/c/loader-c++11
    gcc -std=c11 "${strict[@]}" examples/read_flat.c "$archive" -o target/c/read_flat
    cargo build --offline --quiet --manifest-path cli/Cargo.toml --target-dir target/cli
}
loaders=(target/c/loader-c99 target/c/loader-c11 target/c/loader-c++11)

# The command line takes a kind of board by its name, the loader by its number.
declare -A numbers=([arm64]=64 [arm32]=32 [riscv]=5)

# What the loader prints, without comments and without the record numbers of leaf and cpu.
from_loader() {
    sed -E '/^#/d; s/^[0-9]+,[0-9]+,//' "$1"
}

# The same lines from the output of `sunderwath -p`: the last six columns of each row, then MPIDR and slot of each, where there are slots.
from_command() {
    awk -F, '!/^#/ {
        for (k = NF - 5; k <= NF; k++) printf "%s%s", $k, k < NF ? "," : "\n"
        if ($NF != "") slots = slots "mpidr " $(NF - 5) ": slot " $NF "\n"
    } END { printf "%s", slots }' "$1"
}

# The loader's line is "ERROR NUMBER (CHECK): SENTENCE". The command line puts the file before it and the node's path before the sentence,
# and may end in what stands there: FILE LOADER'S-LINE COMMAND'S-LINE
same_refusal() {
    local head=${2%%: *} sentence=${2#*: } rest=${3#"$1: "}
    [[ $rest == "$head: "* ]] || return 1
    rest=${rest#"$head: "}
    rest=${rest#/*: }
    [[ $rest == "$sentence" || $rest == "$sentence ("* || $rest == "$sentence; "* ]]
}

# Runs a program, keeps what it prints as NAME.out and NAME.err, and gives its exit status in `status`: NAME PROGRAM ARGUMENTS
run() {
    local name=$1
    shift
    status=0
    "$@" >"$out/$name.out" 2>"$out/$name.err" || status=$?
}

# One loader and the command line agree on a blob that the command line has read: FILE KIND LOADER
compare() {
    run loader "$3" "$1" "${numbers[$2]}"
    [ "$status" -eq "$wanted" ] || fail "$1, $2: $3 ends with $status, the command line with $wanted: $(cat "$out/loader.err")"
    if [ "$wanted" -eq 0 ]; then
        diff <(from_command "$out/command.out") <(from_loader "$out/loader.out") || fail "$1, $2: the rows of $3 differ"
    else
        same_refusal "$1" "$(cat "$out/loader.err")" "$(cat "$out/command.err")" || fail "$1, $2: $3 refuses it otherwise"
    fi
}

# All loaders and the command line agree on a blob: FILE KIND
compare_all() {
    run command "$command" -p --board "$2" "$1"
    wanted=$status
    [ "$wanted" -le 1 ] || fail "$1: the command line ends with $wanted"
    for loader in "${loaders[@]}"; do
        compare "$1" "$2" "$loader"
    done
}

compare_boards() {
    local kind=$1 accepted=0 refused=0 source blob
    for source in boards/*.dts; do
        blob=$out/$(basename "$source" .dts).dtb
        dtc -q -I dts -O dtb -o "$blob" "$source"
        compare_all "$blob" "$kind"
        if [ "$wanted" -eq 0 ]; then accepted=$((accepted + 1)); else refused=$((refused + 1)); fi
    done
    [ "$accepted" -gt 0 ] && [ "$refused" -gt 0 ] || fail "$kind: $accepted boards accepted, $refused refused"
    echo "loader: as $kind: $accepted boards accepted and $refused refused alike"
}

# What the loader prints in the words of examples/read_flat.c: number, place and second place, or leaf, cpu and either MPIDR and slot or
# hart of each row.
as_read_flat() {
    sed -nE \
        -e 's/^# number=([1-9][0-9]*) place=([0-9]+) second=none .*/refused: rule \1 at \2/p' \
        -e 's/^# number=([1-9][0-9]*) place=([0-9]+) second=([0-9]+) .*/refused: rule \1 at \2, property \3/p' \
        -e 's/^([0-9]+),([0-9]+),(0x[0-9a-f]+),.*,([0-9]+)$/leaf \1, cpu \2, mpidr \3, slot \4/p' \
        -e 's/^([0-9]+),([0-9]+),([0-9]+),.*,$/leaf \1, cpu \2, hart \3/p' "$1"
}

# examples/read_flat.c lends tables of its own; it names the property after its record.
compare_records() {
    local kind=$1 source blob expected found count=0
    for source in boards/*.dts; do
        blob=$out/$(basename "$source" .dts).dtb
        run loader "${loaders[0]}" "$blob" "${numbers[$kind]}"
        run read_flat target/c/read_flat "$blob" "${numbers[$kind]}"
        expected=$(sed -E '/ nodes, /d; s/ \([^)]*\)$//' "$out/read_flat.out")
        found=$(as_read_flat "$out/loader.out")
        [ -n "$expected" ] && [ "$found" = "$expected" ] || fail "$blob, $kind: expected"$'\n'"$expected"$'\n'"found"$'\n'"$found"
        count=$((count + 1))
    done
    echo "loader: as $kind: $count boards with the records and places that lent tables give"
}

# A board of one processor whose /cpus has so many nodes and properties: FILE NODES PROPERTIES
sized() {
    {
        echo '/dts-v1/; / { cpus { #address-cells = <1>; #size-cells = <0>;'
        echo 'cpu@0 { device_type = "cpu"; reg = <0>; phandle = <1>;'
        [ "$3" -le 6 ] || printf 'p%s; ' $(seq 7 "$3")
        echo '}; cpu-map { cluster0 { core0 { cpu = <1>; }; }; };'
        [ "$2" -le 5 ] || printf 'n%s {}; ' $(seq 6 "$2")
        echo '}; };'
    } | dtc -q -I dts -O dtb -o "$1"
}

# The loader's call has no room for one node or property more; of the node the command line tells 2, and it reads the property.
compare_limits() {
    local size blob told
    for size in "1024 6" "5 1024"; do
        blob=$out/${size/ /-}.dtb
        sized "$blob" $size
        compare_all "$blob" arm64
        [ "$wanted" -eq 0 ] || fail "$blob is refused"
    done
    for size in "1025 6 2" "5 1025 0"; do
        set -- $size
        blob=$out/$1-$2.dtb
        sized "$blob" "$1" "$2"
        run command "$command" -p "$blob"
        told=$(sed -nE 's/.*: ERROR ([0-9]+) .*/\1/p' "$out/command.err")
        [ "${told:-0}" -eq "$3" ] || fail "$blob: the command line tells ${told:-0}, not $3"
        run loader "${loaders[0]}" "$blob"
        [ "$status" -eq 1 ] && grep -q '^ERROR 35 ' "$out/loader.err" || fail "$blob: the loader does not tell 35"
    done
    echo "loader: 1024 nodes and 1024 properties are read, one more of either is told as 35"
}

build
for kind in arm64 arm32 riscv; do
    compare_boards "$kind"
    compare_records "$kind"
done
compare_limits
