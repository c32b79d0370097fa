#!/usr/bin/env bash
# What texts cost over pages, through all layers: instructions of a turn, as callgrind counts them. A text of 28 bytes is changed,
# made and cleared, and made behind 0, 1,000 and 4,000 used blocks; one of 200 texts gets a length from 0 to 599 without order.
# No test, and no part of the gate.
# It proves and builds a small program in a folder of its own, over copies of the crates of pages and texts.
set -euo pipefail
top="$(cd "$(dirname "${BASH_SOURCE[0]}")/.." && pwd)"
work="$(mktemp -d)"
trap 'rm -rf "$work"' EXIT
crates="containers task_numbers eu_base page_pool page_table data_space cell_layout text_heap"

mkdir -p "$work/crates/texts/src" "$work/crates/texts/proofs/run"
for crate in $crates; do
    cp -r "$top/crates/$crate" "$work/crates/"
    grep "^$crate:" "$top/crates.txt" >>"$work/crates.txt"
done
echo "texts: text_heap cell_layout data_space page_table page_pool eu_base" >>"$work/crates.txt"
cp "$top/HANDLES" "$work/"

cat >"$work/crates/texts/proofs/Lib.antt" <<'END'
mod TwoSpaces
END

cp "$top/crates/memory_tests/proofs/TwoSpaces.antt" "$work/crates/texts/proofs/"

cat >"$work/crates/texts/proofs/run/Answers.antt" <<'END'
use Rattle.texts.proofs.TwoSpaces.{nil_stands}
use Rattle.texts.proofs.run.Goals as goal

pub over-lent-requires : goal.over-lent-requires
over-lent-requires c = record { agree = rw (c.new-pool.ensures, c.nil-space.ensures) nil_stands }
END

cat >"$work/crates/texts/src/main.rt" <<'END'
//! Texts of one block, with others in front of them.
#![tactic(auto)]
ghost use Rattle.std.specs.Prelude.{◌<◌};

use data_space::DataSpace;
use eu_base::{MemFault, Space};
use page_pool::Pool;
use std::env;
use std::process::ExitCode;
use text_heap::{clear, set};

const TEXT: &[u8] = b"twenty-eight bytes of a text";
const LONG: [u8; 600] = [97; 600];

// Changes the last text.
fn change<S: Space>(space: &mut S, last: u16) -> Result<(), MemFault>
    requires { last < 16384 }
{
    set(space, last, TEXT)?;
    Ok(())
}

// Makes the last text, and takes it away.
fn make<S: Space>(space: &mut S, last: u16) -> Result<(), MemFault>
    requires { last < 16384 }
{
    set(space, last, TEXT)?;
    clear(space, last)?;
    Ok(())
}

// Changes the first text by way of "", so that the next search begins there, and makes the last one.
fn make_behind<S: Space>(space: &mut S, last: u16) -> Result<(), MemFault>
    requires { last < 16384 }
{
    clear(space, 0)?;
    set(space, 0, TEXT)?;
    make(space, last)?;
    Ok(())
}

// Changes one of 200 texts to another length.
fn mix<S: Space>(space: &mut S, turn: u32) -> Result<(), MemFault> {
    let length = turn.wrapping_mul(1_664_525).wrapping_add(1_013_904_223) / 256 % 600;
    set(space, (turn % 200) as u16, &LONG[..length as usize])?;
    Ok(())
}

// Fills so many blocks behind the first one, and then does this so often.
fn exercise<S: Space>(space: &mut S, what: &str, used: u16, turns: u32) -> Result<(), MemFault>
    requires { used < 5000 }
{
    for cell in 0..used + 1 {
        set(space, cell, TEXT)?;
    }
    for turn in 0..turns {
        match what {
            "change" => change(space, used + 1)?,
            "make" => make(space, used + 1)?,
            "mix" => mix(space, turn)?,
            _ => make_behind(space, used + 1)?,
        }
    }
    Ok(())
}

// The words: `change`, `make`, `behind` or `mix`, the number of used blocks, and a third one for 1,000 turns more than 2,000.
fn run(rt: &HostRuntime) -> Option<()> {
    let mut words = Vec::new(rt.alloc());
    for word in env::args(rt).ok()?.skip(1) {
        words.push(word).ok()?;
    }
    let turns = if words.len() > 2 { 3_000 } else { 2_000 };
    let used = words.get(1)?.as_str().parse::<u16>().ok()?.min(4_000);
    let mut pool = Pool::new(rt.alloc());
    let mut space = DataSpace::nil();
    let mut lent = space.over(&mut pool);
    exercise(&mut lent, words.get(0)?.as_str(), used, turns).ok()
}

fn main(rt: HostRuntime) -> ExitCode {
    match run(&rt) {
        Some(_) => ExitCode::from(0),
        None => ExitCode::from(9),
    }
}
END

(cd "$work/crates/texts" && rt run -- change 0) >"$work/log" 2>&1 || {
    cat "$work/log" >&2
    exit 1
}

# instructions that the program executes with these words
instructions() {
    valgrind --tool=callgrind --callgrind-out-file=/dev/null "$work/crates/texts/out/texts" "$@" 2>&1 >/dev/null |
        sed -n 's/.*Collected : \([0-9]*\).*/\1/p'
}

# instructions that the program executes for a turn
turn() {
    echo $((($(instructions "$@" more) - $(instructions "$@")) / 1000))
}

for what in change make behind; do
    for used in 0 1000 4000; do
        printf '%s: %s instructions with %s used blocks in front\n' "$what" "$(turn "$what" "$used")" "$used"
    done
done
printf 'mix: %s instructions\n' "$(turn mix 0)"
