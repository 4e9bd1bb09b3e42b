#!/bin/sh
# Runs `sledge metis` on small theories whose answers are known by hand, and tells for each whether it answers so:
#     bench/answers.sh
# Where facts are found, the proof is printed too, and `sledge check` has to accept it from just these facts. A line for each case;
# a difference is told of, with status 1.
set -u
top=$(cd "$(dirname "$0")/.." && pwd)
program=$top/crates/sledge_cli/out/sledge_cli
[ -x "$program" ] || "$top/sledge" gen 2 >/dev/null
work=$(mktemp -d)
trap 'rm -rf "$work"' EXIT
cd "$work" || exit 2
failed=0

tell() { echo "$1: $2"; case $2 in right*) ;; *) failed=1 ;; esac; }

# the case $1: the text and the status that are due, then the goal, facts and options; the theory is in t.theory
due() {
    name=$1 text=$2 status=$3
    shift 3
    "$program" metis t.theory "$@" >answer
    if [ $? != "$status" ] || [ "$(cat answer)" != "$text" ]; then tell "$name" "WRONG, $(head -n 1 answer)"; return; fi
    [ "$status" = 0 ] || { tell "$name" "right, $text"; return; }
    "$program" metis t.theory "$@" --proof >answer
    if [ "$(head -n 1 answer)" != "$text" ]; then tell "$name" "WRONG with --proof, $(head -n 1 answer)"; return; fi
    sed 1d answer >t.proof
    "$program" check t.theory t.proof >verdict
    if [ "$(cat verdict)" != "checked: $1 from${text#proof: by metis}" ]; then tell "$name" "NOT ACCEPTED, $(cat verdict)"; return; fi
    tell "$name" "right, $text, $(grep -c '^[0-9]' t.proof) steps"
}

modus_ponens='const p : bool; const q : bool; fact f1 : p; fact f2 : ~p | q;'
echo "$modus_ponens goal g : q;" >t.theory
due "a fact and an implication" "proof: by metis f1 f2" 0 g f1 f2
due "the same with three picks, one too few" "proof: not found (spent)" 1 g f1 f2 --budget 3
due "the same with four" "proof: by metis f1 f2" 0 g f1 f2 --budget 4

echo "$modus_ponens fact f3 : q; goal g3 : q;" >t.theory
due "the goal is a fact" "proof: by metis f3" 0 g3 f1 f3

echo 'const p : bool; const q : bool; fact f1 : p; fact f2 : ~p; goal g : q;' >t.theory
due "facts that contradict each other" "proof: by metis f1 f2" 0 g f1 f2

echo 'const p : bool; goal g : p | ~p;' >t.theory
due "a goal that needs no facts" "proof: by metis" 0 g

echo 'const p : bool; goal g : p;' >t.theory
due "a goal that nothing gives" "proof: not found (saturated)" 1 g

# without the types of its variables, the fact would make all things equal
echo 'type unit; type nat; const a : nat; const b : nat; fact one : !x:unit. !y:unit. x = y; goal g : a = b;' >t.theory
due "a type of one thing" "proof: not found (saturated)" 1 g one
due "the same with two picks" "proof: not found (saturated)" 1 g one --budget 2
due "the same with one" "proof: not found (spent)" 1 g one --budget 1

echo 'type nat; const zero : nat; const suc : nat -> nat; const add : nat -> nat -> nat;
    fact add_zero : !m:nat. add m zero = m; fact add_suc : !m:nat. !n:nat. add m (suc n) = suc (add m n);
    goal two : add (suc zero) (suc zero) = suc (suc zero);' >t.theory
due "one and one" "proof: by metis add_zero add_suc" 0 two add_zero add_suc

# the equation of the lambda is needed
echo 'type nat; const zero : nat; const suc : nat -> nat; const map : (nat -> nat) -> nat -> nat;
    fact map_def : !f:nat -> nat. !x:nat. map f x = f x; goal g : map (\y:nat. suc y) zero = suc zero;' >t.theory
due "a lambda" "proof: by metis map_def" 0 g map_def

# which facts are minimal depends on the picks: without x ten are needed, a and d alone are found at nine
echo 'const u : bool; const v : bool; const r : bool; const t : bool; const p : bool; fact x : u; fact j : r; fact a : p & t;
    fact d : (p ==> v) & (p ==> t ==> u); goal g : u & v;' >t.theory
due "a fact that helps at first, nine picks" "proof: by metis a d" 0 g x j a d --budget 9
due "the same with eight" "proof: by metis x a d" 0 g x j a d --budget 8
due "the same with seven" "proof: not found (spent)" 1 g x j a d --budget 7
due "without it, nine picks" "proof: not found (spent)" 1 g j a d --budget 9
due "without it, ten" "proof: by metis a d" 0 g j a d --budget 10
due "the minimal facts, nine picks" "proof: by metis a d" 0 g a d --budget 9
due "the minimal facts, eight" "proof: not found (spent)" 1 g a d --budget 8

echo 'type nat; const p : nat -> bool; const q : bool; fact some_p : ?x:nat. p x; fact every_p : !x:nat. p x ==> q; goal g : q;' >t.theory
due "a chosen thing" "proof: by metis some_p every_p" 0 g some_p every_p
grep -q -F '(eps[nat] {nat}(.p #0))' t.proof || tell "its choice stands in the proof" WRONG

eight() { echo "($1""1 & $1""2 & $1""3 & $1""4 & $1""5 & $1""6 & $1""7 & $1""8)"; }
for k in 1 2 3 4 5 6 7 8; do echo "const p$k : bool; const q$k : bool;"; done >t.theory
echo "const r : bool; fact big : $(eight p) | $(eight q); fact huge : ($(eight p) | $(eight q)) & r; goal g : r;" >>t.theory
due "64 clauses" "proof: not found (spent)" 1 g big --budget 1
due "65 clauses" "fault: fact huge" 2 g huge

# each fifth pick takes the oldest clause: by weight alone the second fact would come too late
{
    echo 'type nat; const zero : nat; const suc : nat -> nat; const e : nat -> bool;'
    for k in 0 1 2 3 4 5 6 7 8 9 10; do echo "const r$k : bool;"; done
    echo 'fact h1 : e (suc zero); fact h2 : ~e (suc zero); fact l : r0 & r1 & r2 & r3 & r4 & r5 & r6 & r7 & r8 & r9; goal g : r10;'
} >t.theory
due "the oldest clause" "proof: by metis h1 h2" 0 g h1 h2 l --budget 10
due "the same with nine picks" "proof: not found (spent)" 1 g h1 h2 l --budget 9

echo 'const p : bool; const q : bool; fact f : p ==> q; goal g : q assume h : p; goal k : q;' >t.theory
due "an assumption" "proof: by metis f h" 0 g f h
due "another goal's assumption" "fault: fact h" 2 k f h
exit $failed
