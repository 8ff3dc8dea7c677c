#!/usr/bin/env bash
# SPDX-License-Identifier: BSD-2-Clause OR GPL-2.0-or-later
#
# The command line on the boards that Debian's kernels know: real_boards.sh [ARCHITECTURE/SUITE]...
# (arm64/bookworm, armhf/bookworm and riscv64/trixie where none is named; bookworm has no riscv64)
#
# Fetches the kernel package of each from Debian's main archive, takes out its blobs, and has real/read.py read them all: a table, and
# target/real-boards/results.txt with a line for each blob. The archive's main part changes with a point release only.
# Needs the network (some 220 MB), apt, fdtget and python3; not root. apt works in target/real-boards, and the machine's own apt stays as
# it is. The mirror is the one that the machine's apt has; DEBIAN_MIRROR names another one.
set -euo pipefail
cd "$(dirname "$0")/.."
top=$PWD
out=$top/target/real-boards
keyring=/usr/share/keyrings/debian-archive-keyring.gpg

fail() {
    echo "real_boards.sh: $*" >&2
    exit 2
}

needed() {
    local program
    for program in apt-get apt-cache dpkg-deb fdtget python3 cargo gcc; do
        command -v "$program" >/dev/null || fail "$program is needed"
    done
    [ -f "$keyring" ] || fail "$keyring is needed (Debian's package debian-archive-keyring)"
}

# The package that depends on an architecture's current kernel.
kernel_of() {
    case $1 in
    arm64) echo linux-image-arm64 ;;
    armhf) echo linux-image-armmp ;;
    riscv64) echo linux-image-riscv64 ;;
    *) fail "no kernel package is known for '$1': arm64, armhf or riscv64" ;;
    esac
}

# The mirror of Debian's main archive that the machine's own apt has.
machine_mirror() {
    apt-get indextargets --format '$(REPO_URI) $(ORIGIN) $(LABEL)' 'Created-By: Packages' 2>/dev/null |
        sed -n 's/ Debian Debian$//p' | head -n 1
}

# An apt directory of its own, with what was configured for the machine (a proxy, say) and without its hooks: ARCHITECTURE SUITE FOLDER
configure() {
    mkdir -p "$3/lists/partial" "$3/archives/partial"
    echo "deb [signed-by=$keyring] $mirror $2 main" >"$3/sources.list"
    cat >"$3/apt.conf" <<CONFIGURATION
#clear APT::Update;
#clear APT::Architectures;
APT::Architecture "$1";
APT::Architectures { "$1"; };
APT::Sandbox::User "root";
Acquire::Languages "none";
Dir::State "$3";
Dir::State::status "/dev/null";
Dir::Cache "$3";
Dir::Etc::SourceList "$3/sources.list";
Dir::Etc::SourceParts "/dev/null";
Dir::Etc::Preferences "/dev/null";
Dir::Etc::PreferencesParts "/dev/null";
CONFIGURATION
}

# Fetches a kernel package, and leaves its blobs and the line "ARCHITECTURE PACKAGE VERSION": ARCHITECTURE SUITE FOLDER
fetch() {
    local package version
    configure "$@"
    apt-get -qq -c "$3/apt.conf" update
    read -r package version < <(apt-cache -c "$3/apt.conf" show --no-all-versions "$(kernel_of "$1")" |
        sed -nE 's/^Depends: ([^ ,]+) \(= ([^)]+)\)$/\1 \2/p') || fail "$2 has no $(kernel_of "$1") for $1"
    echo "$package $version" >&2
    (cd "$3/archives" && apt-get -qq -c "$3/apt.conf" download "$package=$version")
    rm -rf "$3/blobs"
    mkdir "$3/blobs"
    dpkg-deb --fsys-tarfile "$3/archives/${package}_${version//:/%3a}_$1.deb" | tar -x -C "$3/blobs" --wildcards '*.dtb'
    echo "$1 $package $version" >"$3/package"
}

build() {
    ./scripts/archive.sh x86_64 >&2
    cargo build --offline --quiet --release --manifest-path cli/Cargo.toml --target-dir target/cli
}

needed
mirror=${DEBIAN_MIRROR:-$(machine_mirror)}
[ -n "$mirror" ] || fail "apt knows no mirror of Debian's main archive: name one with DEBIAN_MIRROR"
[ $# -gt 0 ] || set -- arm64/bookworm armhf/bookworm riscv64/trixie
for choice; do
    [[ $choice == */* ]] || fail "'$choice' is not ARCHITECTURE/SUITE"
    kernel_of "${choice%%/*}" >/dev/null
done
build
folders=()
for choice; do
    folder=$out/${choice/\//-}
    fetch "${choice%%/*}" "${choice#*/}" "$folder"
    folders+=("$folder")
done
python3 -B tests/real/read.py target/cli/release/sunderwath "$out/results.txt" "${folders[@]}"
