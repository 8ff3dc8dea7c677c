#!/usr/bin/env bash
# SPDX-License-Identifier: BSD-2-Clause OR GPL-2.0-or-later
# All tests: every crate proved, every must-fail edit refused, every program run; facts that use no computed definition; then the
# programs in Rust and C that call the archive. The last line is that of `rt ci`, whose whole output is kept in target/ci.log. Nothing is
# installed before the proofs are done. What `rt ci` passed on this machine before, and nothing changed since, it does not prove again.
set -euo pipefail
cd "$(dirname "$0")/.."

if ! command -v rt >/dev/null; then
    echo "The Rattle kit is needed: 'rt' is not on the PATH." >&2
    exit 2
fi

# Who cannot install packages learns now which are missing.
[ "$(id -u)" -eq 0 ] || ./scripts/setup.sh test

# Says how long a part took, and starts the clock of the next.
took() {
    echo "-- $SECONDS s: $1"
    SECONDS=0
}
SECONDS=0

mkdir -p target
status=0
rt ci 2>&1 | tee target/ci.log || status=$?
took "proofs and must-fail edits"
[ "$status" -eq 0 ] || exit "$status"

# An edit that cannot be applied, compiled or read shows nothing of a contract. It fails nothing in `rt ci`: here it does.
bad=$(sed -nE 's/^rt: ok.*, ([0-9]+) bad.*/\1/p' target/ci.log)
if [ "${bad:-0}" -ne 0 ]; then
    echo "test.sh: $bad must-fail edits are bad: see BAD EDIT in target/ci.log" >&2
    exit 1
fi

./scripts/statements.sh
took "facts that stand by themselves"

./scripts/setup.sh test
took "installing"

./scripts/outside.sh
took "outside tests"

tail -n 1 target/ci.log
