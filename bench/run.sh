#!/bin/sh
# Times the library's simulate and run beside plain C, in turn, and prints the best of each with its
# ratio to C. Ends with status 1 where the two computed different values.
# Usage: bench/run.sh [CALLS [TURNS]]    (CALLS of simulate, a hundred times as many of run)
set -eu
cd "$(dirname "$0")/.."
calls=${1:-2000}
turns=${2:-5}
work=$(mktemp -d)
trap 'rm -rf "$work"' EXIT
(cd crates/bench && rt run) >"$work/check" 2>&1 || { tail -5 "$work/check"; exit 1; }
clang -O3 -o "$work/plain" bench/plain.c
for turn in $(seq "$turns"); do
    crates/bench/out/bench "$calls" >"$work/library.$turn"
    "$work/plain" "$calls" >"$work/checked.$turn"
    "$work/plain" "$calls" bare >"$work/bare.$turn"
    for other in checked bare; do
        for what in library "$other"; do grep -v nanoseconds "$work/$what.$turn" >"$work/$what.values"; done
        cmp "$work/library.values" "$work/$other.values"
    done
done
for what in library checked bare; do
    sed -n 's/nanoseconds //p' "$work/$what".[0-9]* | awk -v calls="$calls" -v what="$what" '
        NR == 1 || $1 < simulate { simulate = $1 }
        NR == 1 || $2 < run { run = $2 }
        END { print what, simulate / calls / 1000, run / calls / 100000 }'
done | awk '
    { simulate[$1] = $2; run[$1] = $3 }
    END {
        printf "%-28s %14s %14s\n", "microseconds to a call", "simulate", "run"
        printf "%-28s %14.2f %14.2f\n", "library", simulate["library"], run["library"]
        printf "%-28s %14.2f %14.2f\n", "plain C, same checks", simulate["checked"], run["checked"]
        printf "%-28s %14.2f %14.2f\n", "plain C, no checks", simulate["bare"], run["bare"]
        printf "%-28s %14.2f %14.2f\n", "library to C, same checks", simulate["library"] / simulate["checked"], run["library"] / run["checked"]
        printf "%-28s %14.2f %14.2f\n", "library to C, no checks", simulate["library"] / simulate["bare"], run["library"] / run["bare"]
    }'
