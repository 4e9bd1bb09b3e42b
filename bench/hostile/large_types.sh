#!/bin/sh
# Times the reading of facts `c = c` and `c = d`, where the types of c and d have 65,535 nodes each:
#     bench/hostile/large_types.sh [FACTS]
# A reader that compares whole types takes facts times nodes steps.
set -eu
facts=${1:-4000}
top=$(cd "$(dirname "$0")/../.." && pwd)
work=$(mktemp -d)
trap 'rm -rf "$work"' EXIT

awk -v n="$facts" 'BEGIN {
    t = "t"; for (i = 0; i < 15; i++) t = "(" t " -> " t ")"
    print "type t; const p : bool; const c : " t "; const d : " t ";"
    for (i = 0; i < n; i += 2) print "fact f" i " : c = c; fact f" i + 1 " : c = d;"
    print "goal g : p;"
}' >"$work/large.theory"
cd "$work"
wc -c large.theory
time "$top/sledge" metis large.theory g | cut -c 1-60
