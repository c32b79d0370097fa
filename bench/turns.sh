#!/usr/bin/env bash
# What a turn costs: tasks that each count to 30,000, all at once in turns, through `eumel play`; instructions as callgrind counts them,
# without those of the same session before the tasks count, a turn. A count of 30,000 takes 30,001 marks, so 300 turns of 100 and a mark. First
# one task, then 4 and 14 (with UR and PUBLIC 16); then one task in the first and the second half of its turns, for the length of the session. No
# test, and no part of the gate. It wants the program built (`./eumel play`).
set -euo pipefail
top="$(cd "$(dirname "${BASH_SOURCE[0]}")/.." && pwd)"
program="$top/crates/eumel/out/eumel"
work="$(mktemp -d)"
trap 'rm -rf "$work"' EXIT

# A session of so many tasks, each of which counts, and so many turns.
session() {
    local tasks=$1 turns=$2 k
    for ((k = 1; k <= tasks; k++)); do
        printf '1>begin ("t%d")\n1>INT VAR i; FOR i UPTO 30000 REP PER\n1^\n' "$k"
    done
    for ((; turns > 10000; turns -= 10000)); do echo '*10000'; done
    [ "$turns" -eq 0 ] || echo "*$turns"
}

counted() {
    session "$1" "$2" >"$work/session"
    valgrind --tool=callgrind --callgrind-out-file="$work/out" "$program" play <"$work/session" 2>&1 >"$work/shown" |
        sed -n 's/.*Collected : \([0-9]*\).*/\1/p'
}

each() {
    local tasks=$1 from=$2 to=$3 before after
    before="$(counted "$tasks" "$from")"
    after="$(counted "$tasks" "$to")"
    echo "$tasks tasks, turns $from to $to: $(((after - before) / (to - from))) instructions a turn"
}

each 1 0 300
each 4 0 1200
each 14 0 4200
each 1 0 150
each 1 150 300
each 14 2100 4200
