#!/usr/bin/env bash
# SPDX-License-Identifier: BSD-2-Clause OR GPL-2.0-or-later
#
# Boots examples/firmware on QEMU's virt machines, aarch64 and riscv64, and compares all that the UART says with what the command line
# and examples/loader.c say of the same tree on this machine: rows, slots and the own row, or number, check name, sentence and places.
#   - trees that QEMU hands over, for several -smp shapes, and one without a cpu-map
#   - damaged trees that QEMU hands over (-dtb)
#   - damaged blobs in memory, and the boards of boards/, read by the same objects linked with another address
#   - no tree at all, an address that is no memory, an entry at another exception level
# The two architectures are booted side by side. Where the archives are made already it takes about half a minute.
set -euo pipefail
cd "$(dirname "$0")/.."
all=target/firmware/test
command=target/cli/debug/sunderwath
loader=$all/loader

# What differs between the two: the kind of board by name and by number, what a processor's id is called, and id 0 as it is printed.
declare -A kinds=([aarch64]=arm64 [riscv64]=riscv) boards=([aarch64]=64 [riscv64]=5)
declare -A ids=([aarch64]=mpidr [riscv64]=hart) zeros=([aarch64]=0x0 [riscv64]=0)
# An address in RAM for trees that the machine does not hand over; the last 40 bytes of the RAM of 128 MiB; and an address behind it.
declare -A places=([aarch64]=0x41000000 [riscv64]=0x81000000) edges=([aarch64]=0x47ffffd8 [riscv64]=0x87ffffd8)
declare -A nowhere=([aarch64]=0x50000000 [riscv64]=0x90000000)

fail() {
    echo "firmware.sh: $*" >&2
    exit 1
}

# ---- what is booted

# An image, linked of the same objects as all of its kind: ARCH NAME [OPTIONS OF MAKE]
image() {
    local arch=$1 name=$2
    shift 2
    make --silent -C examples/firmware ARCH="$arch" OUT="$PWD/$all/$arch/objects" "$@"
    cp "$all/$arch/objects/firmware.elf" "$all/$arch/$name.elf"
}

build() {
    local arch
    rm -rf "$all"
    ./scripts/archive.sh x86_64 aarch64 riscv64
    for arch in aarch64 riscv64; do
        mkdir -p "$all/$arch"
        image "$arch" lent TREE="${places[$arch]}"
        image "$arch" edge TREE="${edges[$arch]}"
        image "$arch" nowhere TREE="${nowhere[$arch]}"
        image "$arch" machine
    done
    image riscv64 hart-2 LINK=-Wl,--defsym,boot_hart=2
    image aarch64 mpidr-0x3 LINK=-Wl,--defsym,boot_mpidr=0x3
    image aarch64 mpidr-0x100 LINK=-Wl,--defsym,boot_mpidr=0x100
    image aarch64 raw LINK=-Wl,--defsym,image_start=0x40080000
    aarch64-linux-gnu-objcopy -O binary "$all/aarch64/raw.elf" "$all/aarch64/raw.bin"
    gcc -std=c11 -Wall -Wextra -Werror -Iinclude examples/loader.c include/sunderwath_text.c \
        target/archive/x86_64/libsunderwath.a -o "$loader"
    cargo build --offline --quiet --manifest-path cli/Cargo.toml --target-dir target/cli
}

# Boots an image and leaves the lines of the UART in uart, without those about tree and stack. The last line has to tell the exit status,
# and every line has to end as a terminal wants it: TITLE IMAGE OPTIONS OF QEMU
boot() {
    local status=0
    title="$arch: $1"
    ./examples/firmware/run.sh "$arch" "$out/$2" "${@:3}" >"$out/raw" 2>"$out/qemu" || status=$?
    [ "$(grep -c $'\r$' "$out/raw")" -eq "$(wc -l <"$out/raw")" ] || fail "$title: lines without carriage return: $(cat "$out/qemu")"
    tr -d '\r' <"$out/raw" | sed -E '/^# (tree at|stack used:) /d' >"$out/uart"
    [ "$(tail -n 1 "$out/uart")" = "end: status $status" ] || fail "$title: ends with $status: $(cat "$out/qemu" "$out/uart")"
}

# Boots with a tree that the machine does not hand over: TITLE FILE
boot_lent() {
    boot "$1" lent.elf -device "loader,file=$2,addr=${places[$arch]},force-raw=on"
}

# ---- what it has to say

# The rows as the command line prints them, without the two names, and the row of an id: ID
expected_rows() {
    echo "# ${ids[$arch]},socket,cluster,core,thread,slot"
    awk -F, -v name="${ids[$arch]}" -v own="$1" '!/^#/ {
        for (k = NF - 5; k <= NF; k++) printf "%s%s", $k, k < NF ? "," : "\n"
        if ($(NF - 5) == own) found = ", row " rows + 0 ($NF == "" ? "" : ", slot " $NF)
        rows++
    } END {
        print "own: " name " " own (found == "" ? ", in no row" : found)
        print "end: status " (found == "" ? 2 : 0)
    }' "$out/command.out"
}

# The refusal in the loader's words, and the places as the loader prints them.
expected_refusal() {
    cat "$out/loader.err"
    sed -nE 's/^# number=[0-9]+ place=([0-9]+) second=([a-z0-9]+) .*/at: place \1, second place \2/p' "$out/loader.out"
    echo "end: status 1"
}

# The command line says the same as the loader, with path and details besides.
same_words() {
    local line said
    line=$(cat "$out/loader.err")
    said=$(grep -m 1 ': ERROR ' "$out/command.err" || true)
    [[ $said == *": ${line%%: *}: "*"${line#*: }"* ]] || fail "$title: the loader says '$line', the command line '$said'"
}

# The number that the UART told, 0 for rows.
number() {
    sed -nE 's/^ERROR ([0-9]+) .*/\1/p' "$out/uart" | grep . || echo 0
}

# Compares, prints the line of this boot and keeps the number: NUMBER
compare() {
    local told
    told=$(number)
    diff "$out/expected" "$out/uart" || fail "$title: what is expected (<) and what the UART says (>) differ"
    [ "$told" = "${1:-$told}" ] || fail "$title: $told is told, not $1"
    echo "$told" >>"$out/told"
    if [ "$told" -eq 0 ]; then
        echo "firmware: $title: $(grep -vcE '^(#|own|end)' "$out/uart") rows, $(grep '^own: ' "$out/uart")"
    else
        echo "firmware: $title: $told $(grep '^at: ' "$out/uart")"
    fi
}

# The UART has to say what the command line says of FILE. The loader reads PACKED, the same tree with a total size within the limit. Where
# a number is stated it has to be told, so that a fault cannot turn out to be none: FILE PACKED [NUMBER] [OWN ID]
same() {
    local status=0 loaded=0
    "$command" -p --board "${kinds[$arch]}" "$1" >"$out/command.out" 2>"$out/command.err" || status=$?
    "$loader" "$2" "${boards[$arch]}" >"$out/loader.out" 2>"$out/loader.err" || loaded=$?
    [ "$status $loaded" = "0 0" ] || [ "$status $loaded" = "1 1" ] ||
        fail "$title: the command line ends with $status, the loader with $loaded"
    if [ "$status" -eq 0 ]; then
        expected_rows "${4:-${zeros[$arch]}}" >"$out/expected"
    else
        same_words
        expected_refusal >"$out/expected"
    fi
    compare "${3:-}"
}

# The UART has to refuse a tree as the loader does: FILE NUMBER
same_as_loader() {
    ! "$loader" "$1" "${boards[$arch]}" >"$out/loader.out" 2>"$out/loader.err" || fail "$title: the loader does not refuse it"
    expected_refusal >"$out/expected"
    compare "$2"
}

# What the first line says was lent, so that nothing is read that may be no memory: BYTES
lends() {
    grep -q "^# tree at ${places[$arch]}, bytes lent: $1"$'\r$' "$out/raw" || fail "$title: $1 bytes expected: $(head -n 1 "$out/raw")"
}

# A run that ends without reading a tree says why, and prints no row: PATTERN
stopped() {
    grep -qE "$1" "$out/uart" || fail "$title: $(cat "$out/uart")"
    [ "$(tail -n 1 "$out/uart")" = "end: status 3" ] || fail "$title: $(tail -n 1 "$out/uart")"
    ! grep -qE '^(own:|# (mpidr|hart),)' "$out/uart" || fail "$title: rows after all: $(cat "$out/uart")"
    echo stopped >>"$out/told"
    echo "firmware: $title: $(grep -E "$1" "$out/uart")"
}

# ---- the boots

# QEMU's own tree in a file, as one of 1 MiB and packed: OPTIONS OF QEMU
dump() {
    ./examples/firmware/run.sh "$arch" "$out/machine.elf" "$@" -M "dumpdtb=$out/tree.dtb" 2>"$out/qemu" || fail "$(cat "$out/qemu")"
    dtc -q -I dtb -O dtb -o "$out/packed.dtb" "$out/tree.dtb"
}

# The tree that the machine hands over: NUMBER OPTIONS OF QEMU
shape() {
    dump "${@:2}"
    boot "${*:2}" machine.elf "${@:2}"
    same "$out/tree.dtb" "$out/packed.dtb" "$1"
}

# One that the command line reads, as it has larger tables and cuts a long blob, and the library's call refuses: NUMBER OPTIONS OF QEMU
too_large() {
    dump "${@:2}"
    boot "${*:2}" machine.elf "${@:2}"
    same_as_loader "$out/packed.dtb" "$1"
}

# A copy of a blob that states 1 MiB and has it: FILE COPY
grow() {
    { head -c 4 "$1" && printf '\x00\x10\x00\x00' && tail -c +9 "$1"; } >"$2"
    truncate -s 1048576 "$2"
}

# A damaged tree: in memory, where its /cpus is not found as one of 1 MiB too, and otherwise handed over by QEMU, which takes no broken
# header or structure and leaves /cpus as it is: NAME NUMBER BYTES
damaged_tree() {
    local file=$out/$1.dtb
    boot_lent "$1" "$file"
    same "$file" "$file" "$2"
    lends "$3"
    case $2 in
    31 | 32) ;;
    33 | 34)
        grow "$file" "$out/grown.dtb"
        boot_lent "$1, 1 MiB" "$out/grown.dtb"
        same "$out/grown.dtb" "$file" "$2"
        [ "$1" = no-blocks ] || lends "$3"
        ;;
    *)
        boot "-dtb $1" machine.elf -smp 4 -dtb "$file"
        same "$file" "$file" "$2"
        ;;
    esac
}

damaged_trees() {
    local name number bytes
    dump -smp 4
    ./scripts/damage.py "$out/packed.dtb" "$out" >"$out/damaged"
    while read -r name number bytes; do
        damaged_tree "$name" "$number" "$bytes"
    done <"$out/damaged"
}

# The boards of boards/: other shapes and numbers, and some have no processor of id 0, or not in their first row.
sample_boards() {
    local source name
    for source in boards/*.dts; do
        name=$(basename "$source" .dts)
        dtc -q -I dts -O dtb -o "$out/$name.dtb" "$source"
        boot_lent "boards/$name" "$out/$name.dtb"
        same "$out/$name.dtb" "$out/$name.dtb"
    done
}

# What a copy is made of: 1 MiB whose strings block ends in a name that is needed, 1 MiB with its structure behind its strings, and 1 MiB
# whose blocks are too long. Then no tree.
copies() {
    grow "$out/whole-case.dtb" "$out/grown.dtb"
    boot_lent "boards/whole-case, 1 MiB" "$out/grown.dtb"
    same "$out/grown.dtb" "$out/whole-case.dtb" 0
    lends "$(stat -c %s "$out/whole-case.dtb")"
    grow "$out/strings-first.dtb" "$out/grown.dtb"
    boot_lent "strings-first, 1 MiB" "$out/grown.dtb"
    same "$out/grown.dtb" "$out/strings-first.dtb" 0
    lends "$(stat -c %s "$out/strings-first.dtb")"
    grow "$out/structure-far.dtb" "$out/far.dtb"
    boot_lent "structure-far, 1 MiB" "$out/far.dtb"
    same_as_loader "$out/far.dtb" 31
    lends 40
    head -c 40 /dev/zero >"$out/zeros"
    boot "memory without a tree" lent.elf
    same_as_loader "$out/zeros" 31
}

# Boots with the header of a tree in the last bytes of memory: FILE
boot_edge() {
    head -c 40 "$out/$1.dtb" >"$out/header"
    boot "header of $1 at the end of memory" edge.elf -m 128 -device "loader,file=$out/header,addr=${edges[$arch]},force-raw=on"
}

# Nothing behind the header is read where it has no magic, or states blocks that are too long; behind a sound one the tree is missed.
ends_of_memory() {
    boot_edge magic
    same_as_loader "$out/header" 31
    boot_edge far
    same_as_loader "$out/header" 31
    boot_edge packed
    stopped "^TRAP: cause 0x"
}

# A blob of 1,024 nodes, nested in each other below a cpu, with the map behind: for such ones the ancestor test recurses most: FILE
nested() {
    {
        echo '/dts-v1/; / { cpus { #address-cells = <1>; #size-cells = <0>; cpu@0 { device_type = "cpu"; reg = <0>; phandle = <1>;'
        for _ in $(seq 1019); do printf 'n { '; done
        for _ in $(seq 1019); do printf '}; '; done
        echo '}; cpu-map { cluster0 { core0 { cpu = <1>; }; }; }; }; };'
    } | dtc -q -I dts -O dtb -o "$1"
}

# The stack that start-up gives is enough for it. As other boards it needs about 50,000 bytes, 32,768 of them for the two tables.
deepest() {
    local used
    nested "$out/nested.dtb"
    boot_lent "1,024 nodes, nested" "$out/nested.dtb"
    same "$out/nested.dtb" "$out/nested.dtb" 0
    used=$(sed -nE 's/^# stack used: ([0-9]+) of .*/\1/p' "$out/raw")
    [ "$used" -gt 49152 ] || fail "$title: $used bytes of stack"
    echo "firmware: $title: $used bytes of stack"
}

# Another processor than the first goes on, and has to find its own row: PROCESSORS MPIDR ROW
own_row() {
    dump -smp "$1"
    boot "$2 goes on, -smp $1" "mpidr-$2.elf" -smp "$1"
    same "$out/tree.dtb" "$out/packed.dtb" 0 "$2"
    grep -q "^own: mpidr $2, row $3, slot $3\$" "$out/uart" || fail "$title: it has not found its row"
}

on_aarch64() {
    local smp
    for smp in 1 4 8 4,sockets=4 4,clusters=2,cores=2 8,sockets=1,clusters=2,cores=4 8,sockets=2,clusters=2,cores=1,threads=2 17 128; do
        shape 0 -smp "$smp"
    done
    shape 0 -smp 4 -cpu max
    shape 0 -smp 1 -semihosting-config enable=off
    own_row 4 0x3 3
    own_row 17 0x100 16
    shape 15 -smp 4 -M virt-6.1
    too_large 35 -smp 256
    dump -smp 4
    boot "raw image, -smp 4" raw.bin -smp 4
    same "$out/tree.dtb" "$out/packed.dtb" 0
    ! grep -q '^# tree at 0x40000000,' "$out/raw" || fail "$title: the tree is not where x0 says"
    boot "no memory at ${nowhere[aarch64]}" nowhere.elf
    stopped "^TRAP: cause 0x96[0-9a-f]{6}, pc 0x402[0-9a-f]{5}, address 0x5000000[0-7]$"
    boot "-M virtualization=on" machine.elf -M virtualization=on
    stopped "^entered at EL2, "
    boot "-M secure=on" machine.elf -M secure=on
    stopped "^entered at EL3, "
}

on_riscv64() {
    local smp
    for smp in 1 4 8 17 64; do
        shape 0 -smp "$smp"
    done
    shape 0 -smp 4,sockets=2 -m 256 -object memory-backend-ram,id=a,size=128M -object memory-backend-ram,id=b,size=128M \
        -numa node,memdev=a,cpus=0-1 -numa node,memdev=b,cpus=2-3
    too_large 35 -smp 128
    too_large 31 -smp 256
    dump -smp 4
    boot "hart 2 goes on, -smp 4" hart-2.elf -smp 4
    same "$out/tree.dtb" "$out/packed.dtb" 0 2
    grep -q '^own: hart 2, row 2$' "$out/uart" || fail "$title: hart 2 has not found its row"
    boot "no memory at ${nowhere[riscv64]}" nowhere.elf
    stopped "^TRAP: cause 0x5, pc 0x8000[0-9a-f]{4}, address 0x9000000[0-7]$"
}

# All boots of an architecture: ARCH
boots() {
    arch=$1 out=$all/$1
    "on_$arch"
    damaged_trees
    sample_boards
    copies
    ends_of_memory
    deepest
    for number in 0 8 10 11 12 13 15 16 17 18 19 20 21 22 23 24 25 26 31 32 33 34 35 36 37; do
        grep -qx "$number" "$out/told" || fail "$arch: $number was never told"
    done
}

build
boots aarch64 &
first=$!
boots riscv64 &
second=$!
status=0
wait "$first" || status=$?
wait "$second" || status=$?
[ "$status" -eq 0 ] || fail "not all boots went as they should"
echo "firmware: $(cat "$all"/*/told | wc -l) boots, each text as it has to be ($SECONDS s)"
