#!/bin/sh
# Times the reading of a prover's output of nearly 4 MiB with N statements, each of which names the one before it:
#     bench/used.sh [N]
set -eu
statements=${1:-40000}
top=$(cd "$(dirname "$0")/.." && pwd)
program=$top/crates/used_bench/out/used_bench
[ -x "$program" ] || (cd "$top/crates/used_bench" && rt run -- data/proof.out >/dev/null)
work=$(mktemp -d)
trap 'rm -rf "$work"' EXIT

awk -v n="$statements" 'BEGIN {
    print "% SZS status Theorem"
    print "% SZS output start Proof"
    print "fof(f_0, axiom, p, file(problem, f_0))."
    for (i = 1; i < n; i++) printf "cnf(c_%d, plain, (p | q(X, f(Y))), inference(resolve, [status(thm)], [%s_%d, f_%d])).\n", i, i == 1 ? "f" : "c", i - 1, i
    printf "cnf(end, plain, ($false), inference(resolve, [], [c_%d])).\n", n - 1
    print "% SZS output end Proof"
}' >"$work/proof.out"
wc -c <"$work/proof.out"
time "$program" "$work/proof.out"
