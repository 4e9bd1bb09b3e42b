#!/bin/sh
# Times `sledge metis` on a chain of N implications between constants of type bool, all facts named:
#     bench/chain.sh [N]
# What it prints is the answer and its time: reading, the search, the lift and the kernel's check.
set -eu
links=${1:-200}
top=$(cd "$(dirname "$0")/.." && pwd)
work=$(mktemp -d)
trap 'rm -rf "$work"' EXIT

awk -v n="$links" 'BEGIN {
    for (i = 0; i <= n; i++) printf "const p%d : bool;\n", i
    print "fact f0 : p0;"
    for (i = 1; i <= n; i++) printf "fact f%d : ~p%d | p%d;\n", i, i - 1, i
    printf "goal g : p%d;\n", n
}' >"$work/chain.theory"

"$top/sledge" metis "$top/examples/modus_ponens.theory" g f1 f2 >/dev/null
cd "$work"
time "$top/sledge" metis chain.theory g $(seq -f 'f%.0f' 0 "$links") | cut -c 1-60
