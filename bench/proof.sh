#!/bin/sh
# Times `sledge check` on a proof file of N steps, over a theory of N / 10 facts (at most 20,000):
#     bench/proof.sh [N..]
# Where no N is given: 10,000 and 100,000. The steps go round facts, assumptions, conjunctions, implications, reflexivity, replacement
# and beta, over terms of about 30 nodes; the last one is the goal. What it prints is the file's size, the answer and its time.
set -eu
[ $# -gt 0 ] || set -- 10000 100000
top=$(cd "$(dirname "$0")/.." && pwd)
program=$top/crates/sledge_cli/out/sledge_cli
work=$(mktemp -d)
trap 'rm -rf "$work"' EXIT

# The number of nested applications of `suc` in term number k.
depth='function depth(k) { return 8 + k % 8 }'

theory() {
    awk -v n="$1" "$depth"'
    function tower(d,  i, t) { t = "zero"; for (i = 0; i < d; i++) t = "suc (" t ")"; return t }
    BEGIN {
        print "type nat;\nconst zero : nat;\nconst suc : nat -> nat;\nconst p : nat -> bool;\nconst q : nat -> bool;"
        for (i = 0; i < n; i++) printf "fact f%d : p (%s);\n", i, tower(depth(i))
        printf "goal g : p (%s);\n", tower(depth(0))
    }'
}

proof() {
    awk -v n="$1" -v facts="$2" "$depth"'
    function tower(d,  i, t) { t = ".zero"; for (i = 0; i < d; i++) t = "(.suc " t ")"; return t }
    function step(rule) { print s++ " " rule }
    BEGIN {
        for (d = 8; d < 16; d++) term[d] = tower(d)
        print "sledge proof 1\ngoal g"
        for (s = 0; s + 9 < n; ) {
            first = s; k = int(s / 9) % facts; t = term[depth(k)]
            step("fact f" k)
            step("assume (.q " t ")")
            step("andintro " first " " first + 1)
            step("andleft " first + 2)
            step("impintro (.q " t ") " first + 3)
            step("refl " t)
            step("subst {nat}(.p #0) " first + 5 " " first)
            step("beta ({nat}(.p (.suc #0)) " t ")")
            step("andright " first + 2)
        }
        while (s < n) step("fact f0")
        print "end"
    }'
}

"$top/sledge" metis "$top/examples/modus_ponens.theory" g f1 f2 >/dev/null
cd "$work"
for steps in "$@"; do
    facts=$((steps / 10))
    [ "$facts" -ge 1 ] || facts=1
    [ "$facts" -le 20000 ] || facts=20000
    theory "$facts" >made.theory
    proof "$steps" "$facts" >made.proof
    wc -c made.theory made.proof | head -n 2
    time "$program" check made.theory made.proof | cut -c 1-60
done
