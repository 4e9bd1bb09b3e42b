#!/bin/sh
# Times `sledge filter --slice K`, K from 0 to 7, on a theory of N facts (at most 20,000) with a hundred constants each:
#     bench/filter.sh [N..]
# Where no N is given: 2,500, 5,000, 10,000 and 20,000. There are 3,000 constants in a row; a fact has a hundred from one stretch of 150 of them and the
# goal has the first 150, so each round reaches the facts a little further on. What it prints is, for each theory, its size, the time of reading it
# alone (by a goal that isn't there) and, for each slice, the number of chosen facts and the time of the whole command.
set -eu
[ $# -gt 0 ] || set -- 2500 5000 10000 20000
top=$(cd "$(dirname "$0")/.." && pwd)
program=$top/crates/sledge_cli/out/sledge_cli
work=$(mktemp -d)
trap 'rm -rf "$work"' EXIT

theory() {
    awk -v facts="$1" -v consts=3000 -v width=150 'BEGIN {
        srand(1)
        for (i = 0; i < consts; i++) printf "const c%d : bool;\n", i
        for (i = 0; i < facts; i++) {
            first = int((consts - width) * rand())
            printf "fact f%d : c%d", i, first
            for (j = 1; j < 100; j++) printf "|c%d", first + int(width * rand())
            print ";"
        }
        printf "goal g : c0"
        for (j = 1; j < width; j++) printf "&c%d", j
        print ";"
    }'
}

now() { date +%s.%N; }

# The words given, with the lines that they print and the seconds that they take.
timed() {
    begun=$(now)
    "$program" "$@" >"$work/out" || true
    ended=$(now)
    awk -v a="$begun" -v b="$ended" 'END { printf "%6d lines %8.2f s\n", NR, b - a }' "$work/out"
}

"$top/sledge" metis "$top/examples/modus_ponens.theory" g f1 f2 >/dev/null
cd "$work"
for facts in "$@"; do
    theory "$facts" >made.theory
    echo "$facts facts, $(wc -c <made.theory) bytes; read alone: $(timed filter made.theory no_such_goal)"
    for slice in 0 1 2 3 4 5 6 7; do
        echo "    slice $slice: $(timed filter made.theory g --slice "$slice")"
    done
done
