#!/usr/bin/env bash
# SPDX-License-Identifier: BSD-2-Clause OR GPL-2.0-or-later
# Facts stand by themselves: no file of specs/facts/ uses an answer or a step, no answer uses a step, and no contract that
# other crates or C can reach cites a step. Prints how many lines there are of each.
set -euo pipefail
cd "$(dirname "$0")/.."
bad=0

complain() {
    echo "$*" >&2
    bad=1
}

# The lines that say something: no comments, no blank lines, no imports.
lines_of() {
    find crates/*/specs -path "*/specs/$1/*.antt" -print0 | xargs -0 cat | grep -cvE '^[[:space:]]*(--.*)?$|^(pub )?use '
}

# The items of a source file that begin so, each on one line: WORDS FILE
items() { tr -s '\n ' ' ' <"$2" | { grep -oE "(^| )$1 [^;]*;" || true; }; }

# Names that a source file takes from specs/steps/, one to a line.
step_names() {
    items 'ghost use' "$1" | sed -nE 's/^ ?ghost use Rattle\.[a-z_0-9]+\.specs\.steps\.[^ ]*\.\{(.*)\};$/\1/p' | tr -s ', ' '\n' | sed '/^$/d'
}

# Functions that other crates or C can call: those of lib.rt, those that lib.rt hands on, methods, and calls for C.
reached() {
    items 'pub use' "$1/lib.rt" | sed -E 's/^ ?pub use .*::\{?([^:{}]*)\}?;$/\1/' | tr -s ', ' '\n' | sed '/^$/d'
    sed -nE 's/^pub fn ([a-z_0-9]+).*/\1/p' "$1/lib.rt"
    sed -nE 's/^pub extern "C" fn ([a-z_0-9]+).*/\1/p; s/^ +pub fn ([a-z_0-9]+).*/\1/p' "$1"/*.rt
}

# The contract of a function: from its name to the brace of its body.
contract() {
    awk -v name="$2" '
        $0 ~ "fn " name "[(]" { inside = 1 }
        inside && /^ *[{]$/ { exit }
        inside { print }' "$1"
}

for file in $(find crates/*/specs -name '*.antt' | sort); do
    case $file in
    */specs/Lib.antt | */specs/facts.antt | */specs/answers.antt | */specs/steps.antt) continue ;;
    */specs/facts/*) barred='answers|steps' ;;
    */specs/answers/*) barred='steps' ;;
    */specs/steps/*) continue ;;
    *) complain "$file: neither a fact, nor an answer, nor a step" && continue ;;
    esac
    if found=$(grep -nE "^(pub )?use Rattle\.[a-z_0-9]+\.specs\.($barred)\." "$file"); then
        complain "$file uses what it may not:"$'\n'"$found"
    fi
done

for source in crates/*/src; do
    [ -f "$source/lib.rt" ] || continue
    for file in "$source"/*.rt; do
        names=$(step_names "$file" | paste -sd'|')
        [ -n "$names" ] || continue
        for function in $(reached "$source" | sort -u); do
            if contract "$file" "$function" | grep -qE "(^|[ (])($names)([ ).]|$)"; then
                complain "$file: the contract of $function cites a step ($names)"
            fi
        done
    done
done

[ "$bad" -eq 0 ] || exit 1
echo "statements: $(lines_of facts) lines of facts, $(lines_of answers) of answers, $(lines_of steps) of steps"
