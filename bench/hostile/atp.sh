#!/bin/sh
# Writes problems that are nested deep, long or full of names, and runs `sledge_atp` on each: prints its exit status and the seconds it took.
# A status above 6 would be a crash.
#     bench/hostile/atp.sh [LEVELS [LENGTH]]
set -eu
levels=${1:-4094}
length=${2:-100000}
top=$(cd "$(dirname "$0")/../.." && pwd)
program=$top/crates/sledge_atp/out/sledge_atp
[ -x "$program" ] || (cd "$top/crates/sledge_atp" && rt run -- --budget 4000 --age 3 <stdin >/dev/null)
work=$(mktemp -d)
trap 'rm -rf "$work"' EXIT
bad=0

# N times a text
repeat() { awk -v n="$1" -v t="$2" 'BEGIN { for (i = 0; i < n; i++) printf "%s", t }'; }

run() {
    start=$(date +%s%N)
    status=0
    "$program" --budget 100 --age 5 <"$work/problem" >"$work/out" 2>/dev/null || status=$?
    end=$(date +%s%N)
    printf '%-28s status %3d  %s ms  %s bytes out\n' "$1" "$status" "$(( (end - start) / 1000000 ))" "$(wc -c <"$work/out")"
    [ "$status" -le 6 ] || bad=$((bad + 1))
}

nest() { { printf 'fof(a, axiom, '; repeat "$2" "$3"; printf 'p'; repeat "$2" "$4"; printf ').\nfof(g, conjecture, p).\n'; } >"$work/problem"; run "$1"; }

nest brackets "$levels" '(' ')'
nest negations_in_brackets "$levels" '(~ ' ')'
nest conjunctions_in_brackets "$levels" '(p & ' ')'
nest implications_in_brackets "$levels" '(p => ' ')'
nest universal_in_brackets "$levels" '(! [X] : ' ')'
nest existential_in_brackets "$levels" '(? [X] : ' ')'
nest terms "$levels" 'f(' ')'
nest negations "$length" '~ ' ''
nest quantifiers "$length" '! [X] : ' ''
nest conjunctions "$length" 'p & ' ''
nest disjunctions "$length" 'p | ' ''
awk -v n="$length" 'BEGIN { for (i = 0; i < n; i++) printf "fof(f_%d, axiom, p%d).\n", i, i; print "fof(g, conjecture, p7)." }' >"$work/problem"; run statements
awk -v n="$length" 'BEGIN { for (i = 0; i < n; i++) printf "fof(f_%d, axiom, ? [X] : sk_%d(X)).\n", i, i; print "fof(g, conjecture, ? [Y] : sk_7(Y))." }' >"$work/problem"; run taken_new_names
nest negated_disjunctions "$((levels / 2 - 7))" '(~ (q | ' '))'
{ printf 'fof(a, axiom, ! [X0'; awk 'BEGIN { for (i = 1; i < 4900; i++) printf ", X%d", i }'; printf '] : p('; repeat "$length" 'X0, '; printf 'X0)).\n'; } >"$work/problem"; run outermost_variable

# One formula under 4,900 quantifiers, whose body is one atom of some 60 MiB of occurrences of the outermost variable.
{ printf 'fof(a, axiom, '; awk 'BEGIN { for (i = 0; i < 4900; i++) printf "! [X%d] : ", i }'; printf 'p('; repeat 15728640 'X0, '; printf 'X0)).\n'; } >"$work/problem"; run outermost_variable_60_mib

# a comment of so many bytes, which is to end with this status
long() {
    { printf '%% '; head -c "$(($2 - 2))" /dev/zero | tr '\0' a; } >"$work/problem"
    run "$1"
    [ "$status" -eq "$3" ] || { echo "WRONG: status $3 was due"; bad=$((bad + 1)); }
}
long longest_input 67108864 1
long longer_input 67108865 3
[ "$bad" -eq 0 ]
