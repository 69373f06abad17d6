#!/bin/sh
# Builds the program `speed` and the same algorithm in plain Rust, runs both on the same boards, and
# prints the best time of three of each and their ratio: 1.0 is plain Rust, more is slower. Name
# boards to run only those: benches/run.sh card rings. The lines also go to out/benches/results.txt.
set -e
cd "$(dirname "$0")/.."
speed=crates/speed/out/speed
[ -x $speed ] || (cd crates/speed && rt run)
out=out/benches
times=${TIMES:-3}
mkdir -p $out
rustc --edition 2024 -C opt-level=3 -o $out/plain benches/plain.rs
: > $out/results.txt
boards=${*:-card rings mixed quiet still}

# The line of the least time of several runs of a command.
best() {
    for i in $(seq "$times"); do "$@" 2>/dev/null; done | sort -n -k 8 | head -1
}

for board in $boards; do
    $speed board "$board" > "$out/$board.nlb"
    for queue in heap wheel; do
        for values in nine pull; do
            ours=$(best $speed "$board" $queue $values)
            set -- $ours
            plain=$(best $out/plain "$board" $queue $values "$out/$board.nlb" "$4")
            printf '%s\n%s\n' "$ours" "$plain" | awk '
                NR == 1 { ticks = $4; changes = $6; ours = $8; rate = $10 }
                NR == 2 {
                    if ($4 != ticks || $6 != changes) print "the two differ:", $0
                    printf "%-6s %-5s %s  %9d ticks %9d changes  speed %8.1f ms %10d changes/s  plain %8.1f ms %10d changes/s  ratio %.2f\n",
                        $1, $2, $3, ticks, changes, ours / 1000, rate, $8 / 1000, $10, ours / ($8 > 0 ? $8 : 1)
                }' | tee -a $out/results.txt
        done
    done
done
