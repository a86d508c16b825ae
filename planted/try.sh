#!/usr/bin/env bash
# Says of each planted bug, planted/CRATE/NAME.edit, what finds it: the prover, else a test or a program's stored output, else nothing.
#     planted/try.sh [CRATE..]        all crates that have bugs, where none is named
# Works on a copy of the repository and begins with what the last rt check kept. Needs the kit alone.
set -euo pipefail
cd "$(dirname "$0")/.."
work=$(mktemp -d)
trap 'rm -rf "$work"' EXIT
copy=$work/copy
declare -A counts=([refused]=0 [caught]=0 [survives]=0 [bad]=0)

# A copy of the repository, with the planted bugs of these crates in the place of the must-fail edits.
make_copy() {
    mkdir "$copy"
    cp -a crates crates.txt "$copy"
    [ ! -e HANDLES ] || cp HANDLES "$copy"
    rm -rf "$copy"/crates/*/must-fail
    local crate
    for crate in "$@"; do
        cp -r "planted/$crate" "$copy/crates/$crate/must-fail"
    done
}

# The crate and all that stand on it. crates.txt names each crate behind those that it uses.
with_those_above() {
    awk -F: -v crate="$1" '/^[a-z]/ {
        split($1, name, " ")
        is_above[name[1]] = name[1] == crate
        for (i = split($2, used, " "); i > 0; i--) if (is_above[used[i]]) is_above[name[1]] = 1
        if (is_above[name[1]]) print name[1]
    }' crates.txt
}

# Makes the replacements of an edit in the crate's files. rt must-fail has seen that each `old:` text is there once.
apply() {
    local crate=$1 edit=$2 line file="" old="" new text
    while IFS= read -r line; do
        case $line in
            "file: "*) file=$copy/crates/$crate/${line#file: } ;;
            "old: "*) old=${line#old: } ;;
            "new:"*)
                new=${line#new:}
                new=${new# }
                text=$(<"$file")
                text=${text/"$old"/"$new"}
                printf '%s\n' "$text" > "$file"
                ;;
        esac
    done < "$edit"
}

take_back() {
    rm -rf "$copy/crates/$1/src"
    cp -a "crates/$1/src" "$copy/crates/$1/src"
}

has_tests() {
    grep -rqF '#[test]' "crates/$1/src"
}

# Says which test of a crate fails first, if any does.
failed_tests() {
    local said="$work/said" test
    has_tests "$1" || return 0
    (cd "$copy/crates/$1" && rt try --test > "$said" 2>&1) && return 0
    test=$(sed -n 's/^test \(.*\) \.\.\. FAILED$/\1/p' "$said" | head -n 1)
    echo "the tests of $1${test:+, $test}"
}

# Says so if a program, run as the gate runs it, gives another output or status than the stored one. Status 6 is rt's own, for a run
# that gave no answer in time, and says nothing of the bug.
failed_program() {
    local at=$copy/crates/$1 words=() wanted=0 status=0 input=/dev/null output=/dev/null
    [ -f "$at/src/main.rt" ] || return 0
    [ ! -f "$at/stdin" ] || input=$at/stdin
    [ ! -f "$at/stdout" ] || output=$at/stdout
    [ ! -f "$at/args" ] || mapfile -t words < "$at/args"
    [ ! -f "$at/status" ] || wanted=$(<"$at/status")
    (cd "$at" && rt try --seconds 600 -- "${words[@]}" < "$input" > "$work/printed" 2> "$work/said") || status=$?
    [ "$status" != 6 ] || return 0
    [ "$status" = "$wanted" ] && cmp -s "$work/printed" "$output" && return 0
    echo "the program $1"
}

# What finds a bug that the prover lets through: the first that fails of the tests and programs above.
found_by() {
    local crate found
    for crate in $(with_those_above "$1"); do
        found=$(failed_tests "$crate")
        [ -n "$found" ] || found=$(failed_program "$crate")
        if [ -n "$found" ]; then
            echo "$found"
            return
        fi
    done
}

say() {
    counts[$1]=$((counts[$1] + 1))
    echo "$2: $3"
}

# A bug that the prover lets through.
try_tests() {
    local crate=${1%%/*} found
    apply "$crate" "planted/$1"
    found=$(found_by "$crate")
    take_back "$crate"
    if [ -n "$found" ]; then
        say caught "$1" "caught by tests only: $found"
    else
        say survives "$1" "survives"
    fi
}

# By what rt must-fail said of a bug.
judge() {
    local bug=$1 said=$2 place
    place=$(grep -oE '(src|specs|proofs)/[^: ]+:[0-9]+:[0-9]+' <<< "$said" | head -n 1 || true)
    case $said in
        "refused, as it must be (only"*) say refused "$bug" "refused by the prover, but little is said by it: ${said#*(}" ;;
        "refused, as it must be"*) say refused "$bug" "refused by the prover: $place" ;;
        "NOT REFUSED"*) try_tests "$bug" ;;
        *) say bad "$bug" "$said" ;;
    esac
}

[ $# -gt 0 ] || set -- $(cd planted && ls -d */ | tr -d /)
make_copy "$@"
(cd "$copy" && rt must-fail "$@") > "$work/log" 2>&1 || true
while read -r bug said; do
    judge "${bug%:}" "$said"
done < <(sed -n 's/^rt: must-fail //p' "$work/log")
[ "${counts[bad]}" = 0 ] || echo "not tried or bad edits: ${counts[bad]}" >&2
echo "${counts[refused]} refused by the prover, ${counts[caught]} caught by tests only, ${counts[survives]} survive"
[ "${counts[bad]}" = 0 ]
