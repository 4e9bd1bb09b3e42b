#!/bin/sh
# Takes the side condition of a rule away, in the rule's definition and in its code, and shows that the proof of soundness doesn't go through:
#     bench/unsound.sh [PATCH..]
# Each patch under bench/unsound/ is put on a copy of the repository. A hole `?` stands where the condition was used, and the prover prints
# what is left to show there: the condition, which nothing gives any more. A patch whose copy has no open goal is told of, with status 1.
# It checks the crates below `model_truth` from nothing, so it takes some ten minutes.
set -u
top=$(cd "$(dirname "$0")/.." && pwd)
work=$(mktemp -d)
trap 'rm -rf "$work"' EXIT
[ $# -gt 0 ] || set -- "$top"/bench/unsound/*.patch

status=0
git clone -q "$top" "$work/copy" && cd "$work/copy" || exit 2
for patch in "$@"; do
    git checkout -q . && git apply "$patch" || exit 2
    open=
    for crate in kernel_rules model_truth; do
        (cd "crates/$crate" && rt check --allow-holes) >"$work/log" 2>&1
        open=$(awk '/: goal \?/ { goal = $0 } /⊢/ && goal != "" { print goal ": " $0; goal = "" }' "$work/log")
        [ -z "$open" ] || break
    done
    name=$(basename "$patch" .patch)
    if [ -n "$open" ]; then
        echo "$name: refused in $crate: $open"
    else
        echo "$name: NOT refused"
        status=1
    fi
done
exit $status
