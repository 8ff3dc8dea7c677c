#!/usr/bin/env bash
# SPDX-License-Identifier: BSD-2-Clause OR GPL-2.0-or-later
# The version, from the macros of include/sunderwath.h: version.sh [--check]
#
# With --check, every other place that states a version has to state this one: the header's text, the manual page, the newest entry of
# CHANGELOG.md, the README, each Cargo.toml, and the lock files of Sunderwath's own crates. Each one that differs is named.
set -euo pipefail
cd "$(dirname "$0")/.."
header=include/sunderwath.h
bad=0

# A number of the header: MAJOR, MINOR or PATCH
part() { sed -nE "s/^#define SUNDERWATH_VERSION_$1 ([0-9]+)$/\1/p" "$header"; }

# Complains where a file states no version, or another one: FILE VERSIONS
agree() {
    local found=${2:-none}
    if [ "$found" != "$version" ]; then
        echo "$1: version ${found//$'\n'/ and }, not $version" >&2
        bad=1
    fi
}

# The version of a Cargo.toml's own package.
of_manifest() { awk '/^\[/ { own = $0 == "[package]" } own && /^version = / { print $3 }' "$1" | tr -d '"'; }

# The different versions that a lock file has for Sunderwath's crates.
of_lock() { awk '/^name = / { own = $3 ~ /^"sunderwath/ } own && /^version = / { print $3 }' "$1" | tr -d '"' | sort -u; }

version=$(part MAJOR).$(part MINOR).$(part PATCH)
[[ $version =~ ^[0-9]+\.[0-9]+\.[0-9]+$ ]] || { echo "$header: no version" >&2; exit 1; }

case ${1-} in
'') echo "$version" && exit ;;
--check) ;;
*) echo "usage: version.sh [--check]" >&2 && exit 2 ;;
esac

agree "$header" "$(sed -nE 's/^#define SUNDERWATH_VERSION "(.*)"$/\1/p' "$header")"
agree docs/sunderwath.1 "$(sed -nE 's/^\.TH SUNDERWATH 1 "[^"]*" "sunderwath ([^"]*)".*/\1/p' docs/sunderwath.1)"
agree CHANGELOG.md "$(sed -nE '/^## \[/ { s/^## \[([^]]*)\].*/\1/p; q }' CHANGELOG.md)"
agree README.md "$(sed -nE 's/^Version ([0-9.]+[0-9])\. .*/\1/p' README.md)"
for manifest in $(find . -name Cargo.toml -not -path './target/*' -printf '%P\n' | sort); do
    agree "$manifest" "$(of_manifest "$manifest")"
    lock=${manifest%.toml}.lock
    [ ! -f "$lock" ] || agree "$lock" "$(of_lock "$lock")"
done

[ "$bad" -eq 0 ] || exit 1
echo "version: $version everywhere"
