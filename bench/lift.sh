#!/bin/sh
# Tells where the time of `sledge metis` goes: how much into a search, and how much into the steps of the proof:
#     bench/lift.sh [FAMILY..]
# The goals are those of metis.sh (goals.sh says what the families are). Each is tried with the least budget with which it is found, so that the replays
# that leave a fact out, which find nothing, make at most as many picks as the one that finds the refutation. For each: its family and size, these picks,
# how many searches were made at least (the first, and one without each fact that is named), the seconds of processor, and by samples the shares of the
# search, of clauses and their encoding, of lifting and kernel steps, of memory and of the rest, in per cent. It needs `perf`.
set -eu
top=$(cd "$(dirname "$0")/.." && pwd)
program=$top/crates/sledge_cli/out/sledge_cli
[ -x "$program" ] || "$top/sledge" gen 2 >/dev/null
work=$(mktemp -d)
trap 'rm -rf "$work"' EXIT
cd "$work"
. "$top/bench/goals.sh"

# whether the goal is found with this budget
# shellcheck disable=SC2086
found() { "$program" metis t.theory g $facts --budget "$1" >/dev/null; }

# the least budget with which the goal is found, from below, since a search with little to do is soon over; none above 2,000
picks() {
    high=1
    until found "$high"; do
        [ "$high" -lt 2000 ] || return 0
        high=$((high * 2))
    done
    low=$((high / 2))
    while [ $((low + 1)) -lt "$high" ]; do
        middle=$(((low + high) / 2))
        if found "$middle"; then high=$middle; else low=$middle; fi
    done
    echo "$high"
}

run() {
    facts=$("$1" "$2")
    picks=$(picks)
    [ -n "$picks" ] || { echo "$1 $2: not found"; return; }
    # shellcheck disable=SC2086
    perf record -q -F 5000 -o samples "$program" metis t.theory g $facts --budget "$picks" --proof >answer 2>/dev/null
    searches=$(head -n 1 answer | awk '{ print NF - 3 + 1 }')
    perf script -i samples -F ip,sym 2>/dev/null | awk -v name="$1 $2" -v picks="$picks" -v searches="$searches" '
        function part(symbol) {
            if (symbol ~ /^(fo_terms|fo_unify|fo_order|fo_infer|fo_light|fo_cells|unit_tree|pair_marks|cover_marks|flat_subsume|metis_core)::/) return "search"
            if (symbol ~ /^(hol_clausify|formula_clauses|lambda_lift|fol_encode|goal_search|hol_formulas|indexmap)::/) return "clauses"
            if (symbol ~ /^(hol_lift|clause_instances|tagged_terms|tagged_lines|tagged_inputs|goal_proofs|hol_clauses|hol_refutations|hol_derived|hol_kernel|kernel_rules|hyp_sets|hol_terms)::/) return "steps"
            if (symbol ~ /malloc|free|realloc|unlink_chunk|memcpy|memmove|^std_alloc/) return "memory"
            return "rest"
        }
        { all++; of[part($2)]++ }
        END { printf "%-10s %5d picks, %2d searches, %6.2f s: search %4.1f, clauses %4.1f, steps %4.1f, memory %4.1f, rest %4.1f\n", name, picks, searches, all / 5000,
            100 * of["search"] / all, 100 * of["clauses"] / all, 100 * of["steps"] / all, 100 * of["memory"] / all, 100 * of["rest"] / all }'
}

[ $# -gt 0 ] || set -- nat chain group list append sets order least
for family; do
    for size in $(sizes "$family"); do run "$family" "$size"; done
done
