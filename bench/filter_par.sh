#!/bin/sh
# Shows that the filter chooses the same facts with its scores in threads as alone, and times both together: on the generated theory of 5,000
# facts, and on one of N facts (15,000 where none is given) with a hundred constants each, whose rounds are heavy enough for threads.
#     bench/filter_par.sh [N]
# It needs the program `filter_bench`, built by `rt run` in its folder or by the gate. What it prints is a line for each of the slices 0 to 7.
set -eu
facts=${1:-15000}
top=$(cd "$(dirname "$0")/.." && pwd)
program=$top/crates/filter_bench/out/filter_bench
work=$(mktemp -d)
trap 'rm -rf "$work"' EXIT

"$top/sledge" gen 5000 >"$work/chain.theory"
awk -v facts="$facts" -v consts=3000 'BEGIN {
    srand(1)
    for (i = 0; i < consts; i++) printf "const c%d : bool;\n", i
    for (i = 0; i < facts; i++) {
        printf "fact f%d : c%d", i, i % consts
        for (j = 1; j < 100; j++) { u = rand(); printf "|c%d", int(consts * u * u * u) }
        print ";"
    }
    printf "goal g : c0"
    for (i = 1; i < 200; i++) printf "|c%d", i
    print ";"
}' >"$work/wide.theory"
for name in chain wide; do
    echo "$name"
    time "$program" "$work/$name.theory"
done
