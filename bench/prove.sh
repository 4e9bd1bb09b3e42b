#!/bin/sh
# Runs `sledge prove` on theorems in a folder, each a theory file, with the goals that a list names:
#     bench/prove.sh FOLDER [WORD..]
# FOLDER/index.csv has a line for each theorem behind its first line: the file and the goal. The words are further options of `prove`, as
# `--prover examples/eprover_atp`. For each theorem: the last line of the report, the seconds that it took, and the steps of the proof, which
# `sledge check` accepts. At the end, how many are proved.
set -eu
folder=$(cd "$1" && pwd)
shift
top=$(cd "$(dirname "$0")/.." && pwd)
program=$top/sledge
"$program" gen 1 >/dev/null
work=$(mktemp -d)
trap 'rm -rf "$work"' EXIT

now() { date +%s.%N; }
since() { awk -v a="$1" -v b="$(now)" 'BEGIN { printf "%.2f", b - a }'; }

sed 1d "$folder/index.csv" | cut -d , -f 1-2 | while IFS=, read -r file goal; do
    start=$(now)
    if "$program" prove "$folder/$file" "$goal" --proof "$@" </dev/null >"$work/answer"; then
        seconds=$(since "$start")
        "$program" check "$folder/$file" "$work/answer" >"$work/verdict" || { cat "$work/verdict"; exit 1; }
        echo "$goal: $(grep '^proof: ' "$work/answer"): $seconds s, $(grep -c '^[0-9]' "$work/answer") steps" | tee -a "$work/proved"
    else
        echo "$goal: $(grep -v '^slot' "$work/answer"): $(since "$start") s ($(sed -n 's/^slot [0-9]*: //p' "$work/answer" | sort | uniq -c | tr -s ' \n' ' '))"
    fi
done
[ -f "$work/proved" ] || : >"$work/proved"
echo "$(grep -c . "$work/proved" || true) of $(sed 1d "$folder/index.csv" | grep -c .) proved"
