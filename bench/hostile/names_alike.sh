#!/bin/sh
# Times the declaring of constants whose names share their first 58 bytes, and the finding of each:
#     bench/hostile/names_alike.sh [NAMES]
# There is no hash to collide in: a name is found by comparing it to the names on one path of a tree.
set -eu
names=${1:-100000}
top=$(cd "$(dirname "$0")/../.." && pwd)
work=$(mktemp -d)
trap 'rm -rf "$work"' EXIT

awk -v n="$names" 'BEGIN {
    front = "c"; while (length(front) < 58) front = front "x"
    for (i = 0; i < n; i++) printf "const %s%06d : bool;\n", front, i
    printf "fact f : %s%06d", front, 0
    for (i = 1; i < 200; i++) printf " | %s%06d", front, i * int(n / 200)
    print ";"
    printf "goal g : %s%06d;\n", front, 0
}' >"$work/alike.theory"
cd "$work"
wc -c alike.theory
time "$top/sledge" metis alike.theory g | cut -c 1-60
