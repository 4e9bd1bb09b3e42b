#!/bin/sh
# Checks a proof with one type that is nested deep, first to the left and then to the right:
#     bench/hostile/deep_type.sh [DEPTH]
# Up to 50,000 the step is looked at; above, the answer is want of memory, with status 6.
set -eu
depth=${1:-120000}
top=$(cd "$(dirname "$0")/../.." && pwd)
work=$(mktemp -d)
trap 'rm -rf "$work"' EXIT

cd "$work"
echo 'const p : bool; goal g : p;' >small.theory
awk -v n="$depth" 'BEGIN {
    printf "sledge proof 1\ngoal g\n0 refl $0:"
    for (i = 0; i < n; i++) printf "("
    printf "bool"
    for (i = 0; i < n; i++) printf ">bool)"
    print "\nend"
}' >left.proof
awk -v n="$depth" 'BEGIN {
    printf "sledge proof 1\ngoal g\n0 refl $0:"
    for (i = 0; i < n; i++) printf "(bool>"
    printf "bool"
    for (i = 0; i < n; i++) printf ")"
    print "\nend"
}' >right.proof
for proof in left.proof right.proof; do
    wc -c "$proof"
    status=0
    time "$top/sledge" check small.theory "$proof" || status=$?
    echo "status $status"
done
