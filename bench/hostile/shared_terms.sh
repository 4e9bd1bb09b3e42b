#!/bin/sh
# Checks a proof of some 700 bytes whose terms double with each line, and in the end are compared:
#     bench/hostile/shared_terms.sh [DOUBLINGS]
# As trees the terms have about 2 to the power of DOUBLINGS nodes. Where the log would look at more than its bound the answer is want
# of memory, with status 6; below it the last sequent isn't the goal without hypotheses, and the status is 7.
set -eu
doublings=${1:-30}
top=$(cd "$(dirname "$0")/../.." && pwd)
work=$(mktemp -d)
trap 'rm -rf "$work"' EXIT

cd "$work"
echo 'const p : bool; goal g : p;' >small.theory
awk -v n="$doublings" 'BEGIN {
    print "sledge proof 1\ngoal g\n0 assume .p\n1 orleft .p 0\n2 andintro 0 0"
    for (i = 3; i < n + 2; i++) print i " andintro " i - 1 " " i - 1
    print i " orelim 1 " i - 1 " " i - 1 "\nend"
}' >shared.proof
wc -c shared.proof
status=0
time "$top/sledge" check small.theory shared.proof || status=$?
echo "status $status"
