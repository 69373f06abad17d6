#!/usr/bin/env bash
# Misuses that the compiler itself refuses, before any proof. Each line of misuse/table.txt names a sample:
# misuse/NAME.txt must be refused with the message of the table, and its twin misuse/NAME.right.txt,
# which differs only in what the misuse omits, must be accepted, run, and print misuse/NAME.stdout.txt.
# The samples are kept as text, so that the list of crates stays whole; each is tried as a crate of a
# temporary repository, where nothing is proved.
set -euo pipefail

top=$(cd "$(dirname "$0")/.." && pwd)
kit=$(dirname "$(rt doc)")
work=$(mktemp -d)
trap 'rm -rf "$work"' EXIT

# a crate of crates.txt and all that it depends on, the lowest first
reached() {
    local name dep
    for name in "$@"; do
        case " ${seen[*]-} " in *" $name "*) continue ;; esac
        for dep in $(sed -n "s/^$name:\([^#]*\).*/\1/p" "$top/crates.txt"); do reached "$dep"; done
        seen+=("$name")
    done
}

# a repository with the crates that the sample names, and the sample
lay() { # TEXT CRATES..
    local text=$1 name
    shift
    rm -rf "$work/repo"
    mkdir -p "$work/repo/crates/sample/src"
    seen=()
    reached "$@"
    for name in "${seen[@]}"; do
        cp -r "$top/crates/$name" "$work/repo/crates/"
        rm -rf "$work/repo/crates/$name/out"
        grep "^$name:" "$top/crates.txt" >>"$work/repo/crates.txt"
    done
    echo "sample: $*" >>"$work/repo/crates.txt"
    cp "$text" "$work/repo/crates/sample/src/main.rt"
}

# puts the laid sample to the compiler's front end, which says what it refuses; no proof is looked at
compile() {
    local words=() name used
    for name in "${seen[@]}"; do
        used=$(sed -n "s/^$name:\([^#]*\).*/\1/p" "$work/repo/crates.txt")
        words+=(--lib "$name:$(echo std core $used | tr ' ' ',')=../$name/src/lib.rt")
    done
    (cd "$work/repo/crates/sample" && "$kit/bin/rattle" check src/main.rt --crate-name sample "${words[@]}" \
        --extern "std=$kit/rlibs/std.rlib" --extern "core=$kit/rlibs/core.rlib" -L "dependency=$kit/rlibs" \
        --antt-project "$kit/rattle/logic/antt-project.json" --logic-built "$kit/logic_built" --only '') </dev/null >"$work/said" 2>&1
}

# runs the laid twin before any proof, and holds all that it prints to the text that is wanted
runs() { # WANTED
    (cd "$work/repo/crates/sample" && rt try) </dev/null >"$work/printed" 2>"$work/log" || return 1
    cmp "$work/printed" "$1" >>"$work/log" 2>&1
}

fail() { echo "misuse: $1"; exit 1; }

count=0
while IFS='|' read -r name crates message; do
    name=${name// /}
    message=${message# }
    case $name in '' | '#'*) continue ;; esac
    lay "$top/tests/misuse/$name.txt" $crates
    if compile; then fail "$name was accepted"; fi
    grep -qF -- "$message" "$work/said" || fail "$name was refused, but not for its misuse: $(cat "$work/said")"
    lay "$top/tests/misuse/$name.right.txt" $crates
    compile || fail "the twin of $name was refused: $(cat "$work/said")"
    runs "$top/tests/misuse/$name.stdout.txt" || fail "the twin of $name did not run: $(cat "$work/log")"
    echo "misuse: $name is refused, its twin is accepted"
    count=$((count + 1))
done <"$top/tests/misuse/table.txt"
[ "$count" -gt 0 ] || fail "the table is empty"
