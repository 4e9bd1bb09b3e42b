#!/bin/sh
# Times the search alone on problems with goals that don't follow, each to its end:
#     bench/search.sh [PICKS [PROGRAM]]
# search.awk says what they are. For each: how the search ended, after how many picks, with how many kept clauses, of how many symbols and variables, the
# seconds of processor, the picks a second, the most memory, and its bytes for each kept clause. PROGRAM is another `search_bench`, to compare.
set -eu
picks=${1:-2000}
top=$(cd "$(dirname "$0")/.." && pwd)
program=${2:-$top/crates/search_bench/out/search_bench}
[ -x "$program" ] || (cd "$top/crates/search_bench" && rt run -- order 2 2 >/dev/null)
command -v /usr/bin/time >/dev/null || { echo "it wants GNU time: apt-get install time" >&2; exit 2; }
work=$(mktemp -d)
trap 'rm -rf "$work"' EXIT

printf '%-8s %-10s %6s %6s %9s %8s %9s %8s %8s\n' problem end picks kept symbols seconds a_second MiB bytes
for problem in group order ladder lists sets; do
    awk -v problem="$problem" -v budget="$picks" -f "$top/bench/search.awk" >"$work/file"
    /usr/bin/time -o "$work/time" -f '%U %S %M' "$program" "$work/file" >"$work/end"
    symbols=$("$program" "$work/file" lines | sed 's/|.*//' | tr ' ' '\n' | grep -c '^[vf]$')
    awk -v name="$problem" -v symbols="$symbols" 'NR == FNR { end = $2; picks = $3; kept = $4; next } {
        s = $1 + $2
        printf "%-8s %-10s %6d %6d %9d %8.2f %9.0f %8.1f %8.0f\n", name, end, picks, kept, symbols, s, (s > 0 ? picks / s : 0), $3 / 1024, $3 * 1024 / kept
    }' "$work/end" "$work/time"
done
