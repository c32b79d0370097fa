#!/usr/bin/env bash
# A loop of 30,000 turns through `eumel line`, against the same loop in python3: seconds of one run each, their ratio, and the
# instructions that the program executes for a mark and for a turn, as callgrind counts them. No test, and no part of the gate.
set -euo pipefail
top="$(cd "$(dirname "${BASH_SOURCE[0]}")/.." && pwd)"
program="$top/crates/eumel/out/eumel"
here="$top/bench"

# seconds that a command takes, with standard input from a file
seconds() {
    local begin end
    begin=$(date +%s.%N)
    "${@:2}" <"$1" >/dev/null
    end=$(date +%s.%N)
    echo "$end - $begin" | bc -l
}

# instructions that the program executes for a file
instructions() {
    valgrind --tool=callgrind --callgrind-out-file=/dev/null "$program" line <"$1" 2>&1 >/dev/null |
        sed -n 's/.*Collected : \([0-9]*\).*/\1/p'
}

"$program" line <"$here/loop.elan"
python3 "$here/loop.py"
line=$(seconds "$here/loop.elan" "$program" line)
python=$(seconds /dev/null python3 "$here/loop.py")
printf 'line %s s, python3 %s s, ratio %s\n' "$line" "$python" "$(echo "scale=2; $line / $python" | bc -l)"

# 30,000 turns of three marks each, and 100 turns, so that start and reading of the text cancel out
many=$(instructions "$here/loop.elan")
few=$(instructions "$here/loop_100.elan")
echo "instructions: $many for 30,000 turns, $few for 100 turns"
echo "instructions a turn: $(((many - few) / 29900)), a mark: $(((many - few) / 89700))"
