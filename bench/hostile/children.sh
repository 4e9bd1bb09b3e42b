#!/bin/sh
# What is left of children when `sledge prove` ends: behind a win, the limit of time, an output that is closed, and where `sledge` itself is killed:
#     bench/hostile/children.sh
# The children sleep, but that behind a win the first of them prints a proof. A line for each case tells `sledge`'s status and how many children
# still run, or have ended and weren't waited for. Status 1 where any is left of a `sledge` that wasn't killed.
set -u
top=$(cd "$(dirname "$0")/../.." && pwd)
"$top/sledge" gen 1 >/dev/null
work=$(mktemp -d)
trap 'rm -rf "$work"' EXIT
nap=98765.$$
status=0

cat >"$work/one.theory" <<'THEORY'
const p : bool; const q : bool; fact f1 : p; fact f2 : ~p | q; goal g : q;
THEORY
cat >"$work/sleeps" <<CHILD
#!/bin/sh
exec sleep $nap
CHILD
cat >"$work/one_wins" <<CHILD
#!/bin/sh
if mkdir "$work/won" 2>/dev/null; then
    sleep 0.5
    printf '%% SZS status Theorem\n%% SZS output start Proof\ncnf(c, plain, \$false, [f_f1, f_f2]).\n'
    printf 'cnf(f_f1, axiom, p). cnf(f_f2, axiom, q).\n%% SZS output end Proof\n'
    exit 0
fi
exec sleep $nap
CHILD
chmod +x "$work/sleeps" "$work/one_wins"

# the children that run, and those that ended and weren't waited for
left() {
    running=$(ps -eo args | grep -c "^sleep $nap" || true)
    zombies=$(ps -eo stat,comm | grep -c '^Z.*\(sleep\|sleeps\|one_wins\)' || true)
    echo "$running running, $zombies not waited for"
}

tell() {
    sleep 0.2
    seen=$(left)
    echo "$1: status $2; $seen"
    [ "$seen" = "0 running, 0 not waited for" ] || status=1
}

race() { "$top/sledge" prove "$work/one.theory" g --slices 8 --workers 4 "$@"; }

race --prover "$work/one_wins" >"$work/out"
tell "a win" $?
race --prover "$work/sleeps" --timeout 500 >"$work/out"
tell "the limit of time" $?
race --prover "$work/sleeps" --timeout 500 >&-
tell "a closed output" $?

race --prover "$work/sleeps" >"$work/out" &
sleep 1
killed=$(ps -eo pid,args | awk -v word="$work/one.theory" '$0 ~ "sledge_cli prove " word { print $1 }')
kill -9 $killed
wait $! 2>/dev/null
sleep 0.2
echo "killed with children that neither read nor write: $(left)"
ps -eo pid,args | awk -v nap="sleep $nap" 'index($0, nap) && !/awk/ { print $1 }' | xargs -r kill -9

"$top/sledge" gen 2000 >"$work/large.theory"
"$top/sledge" prove "$work/large.theory" g --slices 8 --workers 4 >"$work/out" &
sleep 0.5
kill -9 "$(ps -eo pid,args | awk -v word="$work/large.theory" '$0 ~ "sledge_cli prove " word { print $1 }')" 2>/dev/null
sleep 2
echo "killed, 2 seconds later: $(ps -eo comm | grep -c '^sledge_atp' || true) of its own provers run"
exit $status
