#!/bin/sh
# Checks proofs that gather many assumptions one by one, first with the one on the left of the many, then on the right,
# and discharge them again one by one in the order in which they came:
#     bench/hostile/many_assumptions.sh [ASSUMPTIONS]
# The last sequent is the goal without hypotheses, so the status is 0. A checker that copies the hypotheses at each step
# takes time that grows with the square of their number.
set -eu
assumptions=${1:-4000}
top=$(cd "$(dirname "$0")/../.." && pwd)
work=$(mktemp -d)
trap 'rm -rf "$work"' EXIT

cd "$work"
awk -v n="$assumptions" 'BEGIN { for (i = 0; i < n; i++) print "const c" i " : bool;"; print "goal g : true;" }' >many.theory
for side in left right; do
    awk -v n="$assumptions" -v side="$side" 'BEGIN {
        print "sledge proof 1\ngoal g\n0 trueintro"
        last = 0
        step = 1
        for (i = 0; i < n; i++) {
            print step " assume ((imp .c" i ") .c" i ")"
            print step + 1 " andintro " (side == "left" ? step " " last : last " " step)
            print step + 2 (side == "left" ? " andright " : " andleft ") step + 1
            last = step + 2
            step += 3
        }
        for (i = 0; i < n; i++) {
            print step " impintro ((imp .c" i ") .c" i ") " last
            print step + 1 " assume .c" i
            print step + 2 " impintro .c" i " " step + 1
            print step + 3 " impelim " step " " step + 2
            last = step + 3
            step += 4
        }
        print "end"
    }' >"$side.proof"
    wc -c "$side.proof"
    status=0
    time "$top/sledge" check many.theory "$side.proof" || status=$?
    echo "status $status"
done
