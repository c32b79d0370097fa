#!/usr/bin/env bash
# What lexer, parser and check cost as texts grow: instructions for texts of some 80, 800 and 7,900 tokens of seven shapes, as
# callgrind counts them, and how many times those of the shorter text they are. Where that is far above 10, the part grows
# faster than the text. A part that counts longer than the limit (in seconds) is shown as such. No test, and no part of the gate.
# It proves and builds a small program in a folder of its own, over copies of the crates of the parser and of meaning.
set -euo pipefail
top="$(cd "$(dirname "${BASH_SOURCE[0]}")/.." && pwd)"
limit="${1:-120}"
work="$(mktemp -d)"
trap 'rm -rf "$work"' EXIT
crates="containers task_numbers eu_base cell_kinds call_graph elan_tree elan_lexer elan_grammar elan_cursor phrase_parser elan_parser
    elan_types elan_names elan_scope elan_meant value_rules elan_rules elan_walk type_names elan_judge elan_check"

mkdir -p "$work/crates/parts/src"
for crate in $crates; do
    cp -a "$top/crates/$crate" "$work/crates/"
    grep "^$crate:" "$top/crates.txt" >>"$work/crates.txt"
done
echo "parts: elan_check elan_parser elan_lexer elan_tree eu_base" >>"$work/crates.txt"
cp "$top/HANDLES" "$work/"

cat >"$work/crates/parts/src/main.rt" <<'END'
//! The way of a text as far as a word says: `start` (nothing but reading it), `lex`, `parse` or `check`.
#![tactic(auto)]

use elan_check::{Packets, check};
use elan_lexer::tokens;
use elan_parser::parse;
use std::env;
use std::fs;
use std::process::ExitCode;

// How many tokens the text has, if it comes so far.
fn run(rt: &HostRuntime) -> Option<usize> {
    let mut words = Vec::new(rt.alloc());
    for word in env::args(rt).ok()?.skip(1) {
        words.push(word).ok()?;
    }
    let text = fs::read_to_string(rt, words.get(1)?.as_str()).ok()?;
    if text.len() > 1_000_000 {
        return None;
    }
    let part = words.get(0)?.as_str();
    if part == "start" {
        return Some(0);
    }
    let tokens = tokens(rt.alloc(), text.as_bytes()).ok()?;
    let count = tokens.as_slice().len();
    if part == "lex" {
        return Some(count);
    }
    let tree = parse(rt.alloc(), tokens.as_slice(), false).ok()?;
    if part == "parse" {
        return Some(count);
    }
    let packets = Packets::new(rt.alloc());
    let _core = check(rt.alloc(), &tree, &packets).ok()?;
    Some(count)
}

fn main(rt: HostRuntime) -> ExitCode {
    match run(&rt) {
        Some(count) => match println!(rt; "{count}") {
            Ok(_) => ExitCode::from(0),
            Err(_) => ExitCode::from(8),
        },
        None => ExitCode::from(9),
    }
}
END

# A text of a shape, with about so many tokens.
text() {
    python3 - "$1" "$2" <<'END'
import sys

shape, tokens = sys.argv[1], int(sys.argv[2])
if shape == "refinements":
    count = tokens // 4
    print("r0. " + " ".join(f"r{i}: r{i + 1}." for i in range(count)) + f" r{count}: line.")
elif shape == "refinements reversed":
    count = tokens // 4
    print("r0. " + " ".join(f"r{i}: r{i + 1}." for i in reversed(range(count))) + f" r{count}: line.")
elif shape == "cycle":
    count = tokens // 4
    print("r0. " + " ".join(f"r{i}: r{(i + 1) % count}." for i in range(count)))
elif shape == "procs":
    print("PROC p0: line END PROC p0; " + "; ".join(f"PROC p{i}: p{i - 1} END PROC p{i}" for i in range(1, tokens // 8)))
elif shape == "names":
    print("; ".join(f"INT VAR n{i}; n{i} := 1" for i in range(tokens // 8)))
elif shape == "overloads":
    # lists of INT and BOOL parameters, each once, the shorter ones first
    texts, used, i = [], 0, 2
    while used < tokens:
        names = ", ".join(("BOOL" if c == "1" else "INT") + f" CONST a{k}" for k, c in enumerate(bin(i)[3:]))
        texts.append(f"PROC p ({names}): END PROC p")
        used += 8 + 4 * (len(bin(i)) - 3)
        i += 1
    print("; ".join(texts))
elif shape == "levels":
    depth = min(tokens // 2, 400) - 2
    unit = "put (" + "(" * depth + "1" + ")" * depth + ")"
    print("; ".join([unit] * max(1, tokens // 800)))
END
}

# instructions that the program executes for a part of the way of a text, or nothing where the limit is past
instructions() {
    local said status=0
    said=$(timeout "$limit" valgrind --tool=callgrind --callgrind-out-file=/dev/null "$program" "$1" "$2" 2>&1 >/dev/null) || status=$?
    if [[ "$status" -ne 124 ]]; then
        sed -n 's/.*Collected : \([0-9]*\).*/\1/p' <<<"$said"
    fi
}

# one line: instructions for each size, and how they grow
line() {
    local shape="$1" part="$2" before="$3" last="" shown="" tokens count base
    for tokens in 80 800 7900; do
        text "$shape" "$tokens" >"$work/text"
        base=$(instructions "$before" "$work/text")
        count=$(instructions "$part" "$work/text")
        if [[ -z "$base" || -z "$count" ]]; then
            shown+=" past-the-limit"
            break
        fi
        count=$((count - base))
        shown+=" $count"
        if [[ -n "$last" ]]; then
            shown+=" (x$((count / last)))"
        fi
        last=$count
    done
    printf '%-22s %-6s%s\n' "$shape" "$part" "$shown"
}

text names 80 >"$work/text"
(cd "$work/crates/parts" && rt run --jobs 1 -- check "$work/text") >"$work/log" 2>&1 || {
    tail -40 "$work/log" >&2
    exit 1
}
program="$work/crates/parts/out/parts"
# Of a cycle there is no program: it is refused.
for shape in refinements "refinements reversed" cycle procs names overloads levels; do
    text "$shape" 80 >"$work/text"
    "$program" check "$work/text" >/dev/null || [[ "$shape" == cycle ]] || echo "$shape: no program ($?)"
    line "$shape" lex start
    line "$shape" parse lex
    line "$shape" check parse
done
