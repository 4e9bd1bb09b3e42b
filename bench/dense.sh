#!/bin/sh
# Times `sledge metis` on a theory of 20,000 facts without comments or spare blanks, BYTES long in all (16 MiB where none is given): how long
# the reading of a dense file takes, and how much memory.
#     bench/dense.sh [BYTES]
# The facts are conjunctions of quantified implications over applications of functions. The goal has none of their constants.
set -eu
bytes=${1:-16777216}
top=$(cd "$(dirname "$0")/.." && pwd)
work=$(mktemp -d)
trap 'rm -rf "$work"' EXIT

cd "$work"
awk -v bytes="$bytes" 'BEGIN {
    head = "type n;const f:n->n->n;const p:n->bool;const q:n->n->bool;const r:bool;"
    part = "(!x:n.!y:n.q x(f y x)&p(f(f x y)y)==>q(f(f y x)x)(f x(f y y))|~p(f(f x y)(f y x)))"
    goal = "goal g:r;"
    printf "%s", head
    each = int((bytes - length(head) - length(goal)) / 20000)
    for (k = 0; k < 20000; k++) {
        fact = "fact f" k ":" part
        while (length(fact) + length(part) + 2 < each) fact = fact "&" part
        printf "%s;", fact
    }
    printf "%s", goal
}' >dense.theory
wc -c dense.theory
time "$top/sledge" metis dense.theory g || true
