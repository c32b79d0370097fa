#!/usr/bin/env bash
# A text that grows by CAT to 16,000 bytes, 8 bytes a turn, and one that is changed 10,000 times by operators, through `eumel line`,
# against the same in python3: instructions as callgrind counts them, without those of a program that does nothing, and their ratio;
# and the most memory that `eumel line` took. No test, and no part of the gate. It wants the program built (`./eumel line`).
set -euo pipefail
top="$(cd "$(dirname "${BASH_SOURCE[0]}")/.." && pwd)"
program="$top/crates/eumel/out/eumel"
python="$(python3 -c "import sys; print(sys.executable)")"
work="$(mktemp -d)"
trap 'rm -rf "$work"' EXIT

# instructions that a command executes, with standard input from a file
instructions() {
    valgrind --tool=callgrind --callgrind-out-file=/dev/null "${@:2}" <"$1" 2>&1 >/dev/null |
        sed -n 's/.*Collected : \([0-9]*\).*/\1/p'
}

# one line: what it is, a program of ELAN, and one of python3
line() {
    echo "$2" >"$work/program.elan"
    echo "$3" >"$work/program.py"
    echo "line" >"$work/nothing.elan"
    echo "" >"$work/nothing.py"
    local ours theirs
    if [[ "$("$program" line <"$work/program.elan")" != "$(python3 "$work/program.py") " ]]; then
        echo "$1: the two write different things"
        return 1
    fi
    ours=$(($(instructions "$work/program.elan" "$program" line) - $(instructions "$work/nothing.elan" "$program" line)))
    theirs=$(($(instructions /dev/null "$python" "$work/program.py") - $(instructions /dev/null "$python" "$work/nothing.py")))
    printf '%s: %s instructions, python3 %s, ratio %s\n' "$1" "$ours" "$theirs" "$(echo "scale=2; $ours / $theirs" | bc -l)"
    python3 - "$program" "$work/program.elan" <<'END'
import resource, subprocess, sys
with open(sys.argv[2], encoding="utf-8") as text:
    subprocess.run([sys.argv[1], "line"], stdin=text, stdout=subprocess.DEVNULL, check=True)
print(f"    memory: {resource.getrusage(resource.RUSAGE_CHILDREN).ru_maxrss} kB")
END
}

line "CAT to 16,000 bytes, 8 a turn" \
    'TEXT VAR t; WHILE LENGTH t < 16000 REP t CAT "abcdefgh" PER; put (LENGTH t)' \
    't = b""
while len(t) < 16000:
    t += b"abcdefgh"
print(len(t))'
line "a text of 40 bytes, changed 10,000 times" \
    'TEXT VAR t :: 5 * "abcdefgh"; INT VAR i; FOR i UPTO 10000 REP t := subtext (t, 2) + code (97 + i MOD 26) PER; put (t)' \
    't = 5 * b"abcdefgh"
for i in range(1, 10001):
    t = t[1:] + bytes([97 + i % 26])
print(t.decode())'
