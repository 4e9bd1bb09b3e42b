#!/bin/sh
# Tries more wrong bodies than the gate does, and shows that the prover refuses each:
#     bench/wrong.sh [CRATE..]
# Each edit under bench/wrong/CRATE turns the body of that crate into a wrong one. On a copy of the repository they stand in the place of the
# crate's own edits, and `rt must-fail CRATE` tries them. A line for each names the goal that refuses it. One that isn't refused, can't be
# tried, or is refused for a name or a limit alone, is told of, with status 1.
# What `rt check` left of the crate and of those below it is copied too; with nothing left it begins from nothing.
set -u
top=$(cd "$(dirname "$0")/.." && pwd)
work=$(mktemp -d)
trap 'rm -rf "$work"' EXIT
[ $# -gt 0 ] || set -- $(ls "$top/bench/wrong")

status=0
git clone -q "$top" "$work/copy" && cd "$work/copy" || exit 2
for crate in "$@"; do
    for below in "$crate" $(sed -n "s/^$crate[^:]*://p" crates.txt); do
        if [ -d "$top/crates/$below/out" ] && [ ! -d "crates/$below/out" ]; then cp -a "$top/crates/$below/out" "crates/$below/"; fi
    done
    rm -rf "crates/$crate/must-fail" && cp -r "$top/bench/wrong/$crate" "crates/$crate/must-fail" || exit 2
    rt must-fail "$crate" >"$work/log" 2>&1
    for edit in "crates/$crate/must-fail"/*.edit; do
        name=$(basename "$edit" .edit)
        line=$(grep -m 1 "$crate/$name\.edit" "$work/log")
        echo "${line:-$crate/$name.edit: NOT TRIED}"
        case $line in *"(only "* | *": NOT "* | *": BAD "* | "") status=1 ;; esac
    done
done
exit $status
