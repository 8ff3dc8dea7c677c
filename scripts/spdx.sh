#!/usr/bin/env bash
# SPDX-License-Identifier: BSD-2-Clause OR GPL-2.0-or-later
# Every source file that git tracks names its licence: spdx.sh [--add]
#
# The SPDX line stands among the first three lines, by itself, as a comment of the file's language. Files that lack it are named; with
# --add it is inserted as the first line, behind a line that names an interpreter. A line that is there and says something else is told,
# and never changed. Files whose bytes are compared (must-fail edits, inputs, expected outputs) and documents have none.
set -euo pipefail
cd "$(dirname "$0")/.."
word=SPDX-License-Identifier
add=no
bad=0
files=0

complain() {
    echo "$*" >&2
    bad=1
}

# The licence that a file is under: FILE
licence() {
    case $1 in
    boards/hifive-unleashed.dts) echo '(GPL-2.0 OR MIT)' ;; # as its first line has it
    boards/example*.dts) echo GPL-2.0-only ;;               # after the Linux kernel's binding
    *) echo 'BSD-2-Clause OR GPL-2.0-or-later' ;;
    esac
}

# The line that a file should have; nothing for what is no source file: FILE FIRST-LINE
wanted() {
    case $1 in
    *.rs | *.rt | *.dts | *.dtsi) echo "// $word: $(licence "$1")" ;;
    *.c | *.h | *.S | *.ld | *.lds) echo "/* $word: $(licence "$1") */" ;;
    *.antt) echo "-- $word: $(licence "$1")" ;;
    *.1) echo ".\\\" $word: $(licence "$1")" ;;
    *.sh | *.py | *.awk | *.toml | *.mk | *.pc.in | Makefile* | */Makefile*) echo "# $word: $(licence "$1")" ;;
    *) [[ $2 != '#!/'* ]] || echo "# $word: $(licence "$1")" ;;
    esac
}

# Inserts a line as the first one, or as the second behind an interpreter's: FILE LINE FIRST-LINE
insert() {
    local rest
    rest=$(mktemp)
    case $3 in
    '#!/'*) { echo "$3" && echo "$2" && tail -n +2 "$1"; } >"$rest" ;;
    *) { echo "$2" && cat "$1"; } >"$rest" ;;
    esac
    cat "$rest" >"$1"
    rm "$rest"
}

# Looks at one file: FILE
look() {
    local lines line want found=''
    mapfile -t -n 3 lines < <(tr -d '\0' <"$1")
    want=$(wanted "$1" "${lines[0]-}")
    [ -n "$want" ] || return 0
    files=$((files + 1))
    for line in "${lines[@]}"; do
        [[ $line != *"$word"* ]] || found=$line
    done
    if [ "$found" = "$want" ]; then
        return
    elif [ -n "$found" ]; then
        complain "$1: '$found', not '$want'"
    elif [ "$add" = yes ]; then
        insert "$1" "$want" "${lines[0]-}"
    else
        complain "$1: no line '$want'"
    fi
}

case ${1-} in
'') ;;
--add) add=yes ;;
*) echo "usage: spdx.sh [--add]" >&2 && exit 2 ;;
esac
mapfile -t -d '' tracked < <(git ls-files -z)
[ ${#tracked[@]} -gt 0 ] || complain "no file is tracked by git here"
for file in "${tracked[@]}"; do
    # links stand for files that are looked at, and a file that was removed has no licence
    if [ -f "$file" ] && [ ! -L "$file" ]; then look "$file"; fi
done

[ "$bad" -eq 0 ] || exit 1
echo "spdx: $files source files name their licence"
