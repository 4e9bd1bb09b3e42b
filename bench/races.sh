#!/bin/sh
# Runs `sledge prove`, `drill`, `filter`, `problem` and `gen` on small theories whose answers are known by hand, most with a prover that prints a given
# text, and tells for each whether it answers so:
#     bench/races.sh
# A line for each case; a difference is told of, with status 1. Ends with the times of the goal of one and one and of `drill 5000`, both with `sledge_atp`.
set -u
top=$(cd "$(dirname "$0")/.." && pwd)
program=$top/sledge
"$program" gen 2 >/dev/null
work=$(mktemp -d)
trap 'rm -rf "$work"' EXIT
cd "$work" || exit 2
failed=0

# a prover that reads its problem and prints the file `says`
cat >prover <<PROVER
#!/bin/sh
cat >/dev/null
exec cat "$work/says"
PROVER
chmod +x prover

# the case $1 answers with the text $2 and the status $3; the words behind it are `sledge`'s
due() {
    name=$1 text=$2 status=$3
    shift 3
    "$program" "$@" >answer 2>/dev/null
    got=$?
    if [ $got = "$status" ] && [ "$(cat answer)" = "$text" ]; then echo "$name: right"; return; fi
    echo "$name: WRONG, status $got, $(head -n 2 answer | tr '\n' ' ')"
    failed=1
}

none='proof: not found'
facts='const p : bool; const q : bool; fact f1 : p; fact f2 : ~p | q;'
echo "$facts goal g : q;" >TB
cat >TN <<'THEORY'
type nat; const zero : nat; const suc : nat -> nat; const add : nat -> nat -> nat; fact add_zero : !m:nat. add m zero = m;
fact add_suc : !m:nat. !n:nat. add m (suc n) = suc (add m n); goal two : add (suc zero) (suc zero) = suc (suc zero);
THEORY
cat >both <<'TEXT'
# SZS status Theorem
# SZS output start CNFRefutation
fof(f_f2, axiom, (~p|q), file('problem', f_f2)).
fof(goal, conjecture, (q), file('problem', goal)).
cnf(c2, plain, (q|~p), inference(split_conjunct,[status(thm)],[inference(fof_nnf,[status(thm)],[f_f2])])).
fof(f_f1, axiom, (p), file('problem', 'f_f1')).
fof(other, axiom, (r), file('problem', f_other)).
cnf(c4, negated_conjecture, (~q), inference(assume_negation,[status(cth)],[goal])).
cnf(c5, negated_conjecture, ($false), inference(cn,[status(thm)],[c2, c4, f_f1, other])).
# SZS output end CNFRefutation
TEXT
proved='slot 0: proved f1 f2
proof: by metis f1 f2'

one() { due "$@" prove TB g --slices 1 --workers 1 --prover "$work/prover"; }

cp both says
one "a proof from both facts" "$proved" 0
: >says
one "a child that prints nothing" "slot 0: no status
$none" 1
echo '% SZS status GaveUp' >says
one "a child that gives up" "slot 0: no status
$none" 1
sed '$d' both >says
one "a proof cut before its last line" "slot 0: no proof
$none" 1
printf '%% SZS status Theorem\n%% SZS output start Proof\nfof(f_f1, axiom, p, file('"'"'p, f_f1)).\n%% SZS output end Proof\n' >says
one "a quote that stays open" "slot 0: bad text at 71
$none" 1
sed 's/c2, c4/c4/' both >says
one "a proof from one fact, too few" "slot 0: saturated
$none" 1

{ cat both; head -c 4194304 /dev/zero | tr '\0' '%'; } | head -c 4194304 >says
one "4 MiB of output" "$proved" 0
{ cat both; head -c 4194305 /dev/zero | tr '\0' '%'; } | head -c 4194305 >says
one "a byte more" "slot 0: too long
$none" 1

# the proof between its two lines
printed() {
    name=$1 slot=$2
    { printf '%% SZS status Theorem\n%% SZS output start Proof\n'; cat part; printf '\n%% SZS output end Proof\n'; } >says
    case $slot in
    proved*) one "$name" "slot 0: $slot
proof: by metis${slot#proved}" 0 ;;
    *) one "$name" "slot 0: $slot
$none" 1 ;;
    esac
}

printf 'cnf(a, plain, p, b). cnf(b, plain, p, a). cnf(c, plain, $false, a).' >part
printed "parents in a circle" saturated
printf '\377' >part
printed "a byte that is no text" "bad text at 46"
printf 'cnf(a, plain, (p], b).' >part
printed "brackets that don't fit" "bad text at 62"
printf 'cnf(a, plain, p).' >part
printed "no empty clause" "no proof"
: >part
printed "an empty proof" "no proof"
printf 'cnf(c, plain, $false, nobody).' >part
printed "a parent that isn't there" saturated
printf 'cnf(f_f1, axiom, p). cnf(f_f2, axiom, q). cnf(c, plain, $false, [f_f1, f_f2]).' >part
printed "a list of parents" "proved f1 f2"
printf 'cnf(c, plain, $false, inference(r, [], [f_f1:[bind(X, a)], theory(equality), f_f2])).' >part
printed "parents with details" "proved f1 f2"
{ printf 'cnf(c, plain, '; head -c 4096 /dev/zero | tr '\0' '('; } >part
printed "4,096 brackets" "bad text at 4155"

due "starts that fail" "slot 0: no start
slot 1: no start
slot 2: no start
$none" 1 prove TB g --slices 3 --prover "$work/nowhere"
: >says
due "eight silent children" "$(for k in 0 1 2 3 4 5 6 7; do echo "slot $k: no status"; done)
$none" 1 prove TB g --slices 8 --workers 4 --prover "$work/prover"

due "a problem" 'fof(f_f2, axiom, ((~ holds(t0(c_p))) | holds(t0(c_q)))).
fof(f_f1, axiom, holds(t0(c_p))).
fof(goal, conjecture, holds(t0(c_q))).' 0 problem TB g --slice 7
due "a slice of small facts" 'f2 1 32/48
f1 1 0/16' 0 filter TB g --slice 7
due "the first slice" 'f2 1 32/48
f1 2 21/21' 0 filter TB g --slice 0
"$program" problem TN two --slice 0 >answer
grep -q -F 'fof(f_add_zero, axiom, (! [X0] : (t0(app(t1(app(t2(c_add),t0(X0))),t0(c_zero))) = t0(X0)))).' answer && echo "an equation in a problem: right" || {
    echo "an equation in a problem: WRONG"
    failed=1
}
for name in p q r s t; do echo "const $name : bool;"; done >equals
echo 'fact a : p & q; fact b : p & r; fact c : p & s; fact d : p & t; goal g : p;' >>equals
due "marks that are reached exactly" 'a 1 16/32
b 1 16/32
c 1 16/32
d 1 16/32' 0 filter equals g --slice 0
due "a slice of none" "" 0 filter equals g --slice 5
due "a chain of two" 'const c0 : bool;
const c1 : bool;
fact f0 : c0;
fact f1 : c0 ==> c1;
goal g : c1;' 0 gen 2

due "no file" "fault: file nowhere" 3 prove nowhere g
{ cat TB; head -c 16777217 /dev/zero | tr '\0' ' '; } | head -c 16777217 >long
due "a file of 16,777,217 bytes" "fault: file long too long" 3 prove long g
due "a goal that isn't there" "fault: goal h" 4 prove TB h
due "no goal" "fault: usage" 2 metis TB
cp both says
"$program" prove TB g --slices 1 --workers 1 --prover "$work/prover" >/dev/full 2>/dev/null
[ $? = 5 ] && echo "an output that is full: right" || { echo "an output that is full: WRONG"; failed=1; }

two='slot 0: proved add_zero add_suc
proof: by metis add_zero add_suc'
begun=$(date +%s%N)
due "one and one, sledge_atp" "$two" 0 prove TN two --slices 1
now=$(date +%s%N)
echo "    $(((now - begun) / 1000000)) ms"
due "the same with a limit of 600,000 ms" "$two" 0 prove TN two --slices 1 --timeout 600000
begun=$(date +%s%N)
due "drill 5000, four workers" 'facts 5000
chosen 32 128 2 10
proof: by metis f0 f1 f2 f3 f4 f5 f6 f7 f8 f9 f10 f11 f12' 0 drill 5000 --workers 4
now=$(date +%s%N)
echo "    $(((now - begun) / 1000000)) ms"
exit $failed
