#!/bin/sh
# Runs `sledge metis` on theorems in a folder, each a theory file, with the goal and the facts that a list names:
#     bench/theorems.sh FOLDER
# FOLDER/index.csv has a line for each theorem behind its first line: the file, the goal, and the facts, apart by blanks. A fact of many types stands in
# a file once for each of its instances, as NAME, NAME_i1, NAME_i2; all of them are given. For each theorem: how `metis` ends
# within 2,000 picks, the seconds that it took, the least number of picks that finds the proof, and the steps of the proof, which
# `sledge check` accepts.
set -eu
folder=$(cd "$1" && pwd)
top=$(cd "$(dirname "$0")/.." && pwd)
program=$top/crates/sledge_cli/out/sledge_cli
[ -x "$program" ] || "$top/sledge" gen 2 >/dev/null
work=$(mktemp -d)
trap 'rm -rf "$work"' EXIT
cd "$work"

now() { date +%s.%N; }
since() { awk -v a="$1" -v b="$(now)" 'BEGIN { printf "%.2f", b - a }'; }

# the facts of file $1 that are instances of those named behind
instances() {
    file=$1
    shift
    for name; do sed -n "s/^fact \\($name\\(_i[0-9]*\\)\\{0,1\\}\\) :.*/\\1/p" "$folder/$file"; done
}

# the least budget that finds a proof of goal $2 of file $1 from the facts behind
picks() {
    low=0
    high=2000
    while [ $((high - low)) -gt 1 ]; do
        middle=$(((low + high) / 2))
        file=$1
        goal=$2
        if (shift 2; "$program" metis "$folder/$file" "$goal" "$@" --budget "$middle") >/dev/null; then high=$middle; else low=$middle; fi
    done
    echo "$high"
}

sed 1d "$folder/index.csv" | cut -d , -f 1-3 | while IFS=, read -r file goal names; do
    # shellcheck disable=SC2086
    facts=$(instances "$file" $names)
    start=$(now)
    # shellcheck disable=SC2086
    if "$program" metis "$folder/$file" "$goal" $facts --proof >answer; then
        seconds=$(since "$start")
        sed 1d answer >t.proof
        "$program" check "$folder/$file" t.proof >verdict || { cat verdict; exit 1; }
        # shellcheck disable=SC2086
        echo "$goal: $(head -n 1 answer): $seconds s, $(picks "$file" "$goal" $facts) picks, $(grep -c '^[0-9]' t.proof) steps"
    else
        echo "$goal: $(head -n 1 answer): $(since "$start") s"
    fi
done
