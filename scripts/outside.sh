#!/usr/bin/env bash
# SPDX-License-Identifier: BSD-2-Clause OR GPL-2.0-or-later
# The tests outside the proofs, on the archives that scripts/archive.sh writes.
set -euo pipefail
cd "$(dirname "$0")/.."
mkdir -p target/c
archive=target/archive/x86_64/libsunderwath.a
strict=(-Wall -Wextra -Werror -Iinclude)

# Says how long a part took, and starts the clock of the next.
took() {
    echo "-- $SECONDS s"
    SECONDS=0
}
SECONDS=0

# One crate's tests: FOLDER WORDS
cargo_test() {
    local folder=$1
    shift
    cargo test --offline --quiet --manifest-path "$folder/Cargo.toml" --target-dir "target/$folder" "$@"
}

# Builds the examples in C, and compares what all of them print with what is expected.
run_examples() {
    local name
    for name in read_board read_flat wake_slot plan_slots; do
        gcc -std=c11 "${strict[@]}" "examples/$name.c" "$archive" -o "target/c/$name"
    done
    gcc -std=c11 "${strict[@]}" examples/loader.c include/sunderwath_text.c "$archive" -o target/c/loader
    dtc -q -I dts -O dtb -o target/c/whole-case.dtb boards/whole-case.dts
    dtc -q -I dts -O dtb -o target/c/refused.dtb boards/refused-12-reg.dts
    dtc -q -I dts -O dtb -o target/c/hifive.dtb boards/hifive-unleashed.dts
    {
        target/c/read_board
        cargo run --offline --quiet --manifest-path rust/Cargo.toml --target-dir target/rust --example list_slots
        target/c/read_flat target/c/whole-case.dtb
        target/c/wake_slot
        target/c/plan_slots
        target/c/loader target/c/whole-case.dtb
        target/c/loader target/c/refused.dtb 2>&1 || echo "exit status $?"
        target/c/read_flat target/c/hifive.dtb 5
        target/c/loader target/c/hifive.dtb 5
    } | diff - examples/expected.txt
}

echo "== the archives"
./scripts/archive.sh x86_64 aarch64 riscv64 | { grep -v unchanged || true; }
took

echo "== Rust: the library compared with the second reader"
cargo_test tests -- --nocapture
took

echo "== Rust: the crate"
cargo_test rust
took

echo "== Rust: the command line on boards/"
cargo_test cli
took

echo "== C: calls through include/sunderwath.h, and the stack that reading needs"
for name in list_test plan_test board_test slots_test flat_test loader_test stack_test; do
    gcc -std=c11 "${strict[@]}" "tests/c/$name.c" "$archive" -o "target/c/$name"
    "target/c/$name"
done
took

echo "== the loader in C and C++ beside the command line"
./scripts/loader.sh
took

echo "== the examples, and what the README shows"
run_examples
./scripts/readme.sh
./scripts/pictures.sh --check
took

echo "== C under valgrind"
for name in plan_test board_test slots_test flat_test loader_test; do
    valgrind --quiet --error-exitcode=1 "target/c/$name" >/dev/null
done
valgrind --quiet --error-exitcode=1 target/c/loader target/c/whole-case.dtb >/dev/null
took

echo "== the archives of all processors"
./scripts/targets.sh
took

echo "== the firmware, booted"
./scripts/firmware.sh
took

echo "== the package, and Debian's own cargo"
./scripts/package.sh
took
