#!/bin/sh
# Runs `sledge_atp` on every problem under examples/tptp, compares its answer with the one that the problem's first line tells, and times it; and,
# where `eprover` is installed, E on the same files. Prints a line for each problem: the microseconds of both, and the clauses that E processed:
#     bench/atp.sh [BUDGET [AGE]]
# A proof's statements are compared with the line `% uses:`, where a problem has one, and each proof is read by `tstp_read`, which is to find as
# many names as the proof has statements.
set -eu
budget=${1:-4000}
age=${2:-5}
top=$(cd "$(dirname "$0")/.." && pwd)
program=$top/crates/sledge_atp/out/sledge_atp
[ -x "$program" ] || (cd "$top/crates/sledge_atp" && rt run -- --budget 4000 --age 3 <stdin >/dev/null)
reader=$top/crates/used_bench/out/used_bench
[ -x "$reader" ] || (cd "$top/crates/used_bench" && rt run -- data/proof.out >/dev/null)
work=$(mktemp -d)
trap 'rm -rf "$work"' EXIT
wrong=0

# the seconds that a command took, to the microsecond
timed() {
    start=$(date +%s%N)
    "$@" || true
    end=$(date +%s%N)
    echo "$(( (end - start) / 1000 ))" >"$work/time"
}

child() { "$program" --budget "$budget" --age "$age" <"$1" >"$work/child.out" 2>/dev/null; }

# the least budget with which a proof of the problem is found, by halving
picks() {
    low=0
    high=$budget
    while [ $((low + 1)) -lt "$high" ]; do
        middle=$(((low + high) / 2))
        if "$program" --budget "$middle" --age "$age" <"$1" >/dev/null 2>&1; then high=$middle; else low=$middle; fi
    done
    echo "$high"
}

# so many in so many microseconds, a second
rate() { [ "$1" = - ] && echo - || echo $(($1 * 1000000 / $2)); }
e() { eprover --auto --tstp-format --proof-object --cpu-limit=10 --print-statistics "$1" >"$work/e.out" 2>/dev/null; }

printf '%-24s %-14s %10s %10s %10s %10s %10s %10s\n' problem answer child_us given a_second e_us e_given e_a_second
slower=
for file in "$top"/examples/tptp/*.p; do
    name=$(basename "$file" .p)
    wanted=$(sed -n 's/^% status: //p' "$file")
    uses=$(sed -n 's/^% uses: //p' "$file")
    timed child "$file"
    ours=$(cat "$work/time")
    answer=$(sed -n '1s/^% SZS status //p' "$work/child.out")
    note=
    if [ "$answer" != "$wanted" ]; then
        note=" WRONG: $wanted was due"
        wrong=$((wrong + 1))
    elif [ -n "$uses" ]; then
        cited=$(sed -n "s/^fof(\([^,]*\),.*/\1/p" "$work/child.out" | sort | tr '\n' ' ' | sed 's/ $//')
        due=$(printf '%s\n' $uses | sort | tr '\n' ' ' | sed 's/ $//')
        if [ "$cited" != "$due" ]; then
            note=" WRONG: it cites $cited, and $due was due"
            wrong=$((wrong + 1))
        fi
    fi
    picked=-
    if [ "$answer" = Theorem ] || [ "$answer" = Unsatisfiable ]; then
        picked=$(picks "$file")
        read=$("$reader" "$work/child.out")
        stated=$(grep -c '^fof(' "$work/child.out")
        if [ "$read" != "$stated names" ]; then
            note="$note WRONG: read as $read, and $stated names were due"
            wrong=$((wrong + 1))
        fi
    fi
    theirs=-
    given=-
    if command -v eprover >/dev/null 2>&1; then
        timed e "$file"
        theirs=$(cat "$work/time")
        given=$(sed -n 's/^# Processed clauses *: *//p' "$work/e.out" | head -n 1)
        given=${given:--}
    fi
    our_rate=$(rate "$picked" "$ours")
    their_rate=$(rate "$given" "$theirs")
    printf '%-24s %-14s %10s %10s %10s %10s %10s %10s%s\n' "$name" "$answer" "$ours" "$picked" "$our_rate" "$theirs" "$given" "$their_rate" "$note"
    if [ "$our_rate" != - ] && [ "$their_rate" != - ] && grep -q 'SZS status \(Theorem\|Unsatisfiable\|ContradictoryAxioms\)' "$work/e.out" &&
        [ $((our_rate * 3)) -lt "$their_rate" ]; then
        slower="$slower $name"
    fi
done
echo "above three times as fast by E:${slower:- none}"
echo "$wrong wrong"
[ "$wrong" -eq 0 ]
