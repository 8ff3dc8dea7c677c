#!/usr/bin/env bash
# SPDX-License-Identifier: BSD-2-Clause OR GPL-2.0-or-later
# Reads a board and shows it: show.sh FILE [OPTIONS]. The library is proved and the command line built first, once: both are made again only
# where something they are made of has changed.
set -euo pipefail
top=$(cd "$(dirname "$(readlink -f "$0")")/.." && pwd)
"$top/scripts/setup.sh" show
"$top/scripts/archive.sh" x86_64 >&2
(cd "$top" && cargo build --offline --quiet --release --manifest-path cli/Cargo.toml --target-dir target/cli)
exec "$top/target/cli/release/sunderwath" "$@"
