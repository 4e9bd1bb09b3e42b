#!/bin/sh
# Times `sledge metis` on a theory of N facts made by `sledge gen N`, filled up with comments to 16 MiB:
#     bench/read.sh [N]
# What it prints is the answer and its time: the file is read whole before the goal is looked at.
set -eu
facts=${1:-20000}
top=$(cd "$(dirname "$0")/.." && pwd)
work=$(mktemp -d)
trap 'rm -rf "$work"' EXIT

"$top/sledge" gen "$facts" >"$work/made.theory"
cd "$work"
time "$top/sledge" metis made.theory g | cut -c 1-60
size=$(wc -c <made.theory)
awk -v n=$((16777216 - size)) 'BEGIN { line = "# "; while (length(line) < 99) line = line "-"; while (n > 100) { print line; n -= 100 } }' >filling
cat filling made.theory >long.theory
wc -c long.theory
time "$top/sledge" metis long.theory g | cut -c 1-60
