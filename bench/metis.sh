#!/bin/sh
# Times `sledge metis --proof` on goals of growing size, and `sledge check` on the proofs that it prints:
#     bench/metis.sh [FAMILY..]
# goals.sh says what the families are. For each goal: its family and size, how it ended, the seconds of `metis`, the steps and bytes of the proof, and
# the seconds of `check`.
set -eu
top=$(cd "$(dirname "$0")/.." && pwd)
program=$top/crates/sledge_cli/out/sledge_cli
[ -x "$program" ] || "$top/sledge" gen 2 >/dev/null
work=$(mktemp -d)
trap 'rm -rf "$work"' EXIT
cd "$work"

. "$top/bench/goals.sh"

now() { date +%s.%N; }
since() { awk -v a="$1" -v b="$(now)" 'BEGIN { printf "%.2f", b - a }'; }

run() {
    facts=$("$1" "$2")
    start=$(now)
    # shellcheck disable=SC2086
    "$program" metis t.theory g $facts --budget 10000 --proof >answer || true
    searched=$(since "$start")
    ended=$(head -n 1 answer | cut -c 1-40)
    sed 1d answer >t.proof
    steps=$(grep -c '^[0-9]' t.proof || true)
    bytes=$(wc -c <t.proof)
    checked=-
    if [ "$bytes" -gt 0 ]; then
        start=$(now)
        "$program" check t.theory t.proof >verdict || { cat verdict; exit 1; }
        checked=$(since "$start")
    fi
    echo "$1 $2: $ended: metis $searched s, $steps steps, $bytes bytes, check $checked s"
}

[ $# -gt 0 ] || set -- nat chain group list append sets order least
for family; do
    for size in $(sizes "$family"); do run "$family" "$size"; done
done
