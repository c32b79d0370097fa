#!/usr/bin/env bash
# What a read and a write of a cell cost over pages, through all layers, and in a plain map of cells: instructions of one call, as
# callgrind counts them, and their ratio. 1,000 cells are in use. A read is counted between writes, so that no look-up is shared by
# several reads. No test, and no part of the gate.
# It proves and builds a small program in a folder of its own, over copies of the crates of pages.
set -euo pipefail
top="$(cd "$(dirname "${BASH_SOURCE[0]}")/.." && pwd)"
work="$(mktemp -d)"
trap 'rm -rf "$work"' EXIT
crates="containers eu_base page_pool page_table data_space cell_layout text_heap task_numbers space_names space_memory"

mkdir -p "$work/crates/cells/src" "$work/crates/cells/proofs/run"
for crate in $crates; do
    cp -r "$top/crates/$crate" "$work/crates/"
    grep "^$crate:" "$top/crates.txt" >>"$work/crates.txt"
done
echo "cells: space_memory page_table page_pool eu_base" >>"$work/crates.txt"
cp "$top/HANDLES" "$work/"

cat >"$work/crates/cells/proofs/run/Answers.antt" <<'END'
use Rattle.space_memory.proofs.Fresh.{new_stands}
use Rattle.cells.proofs.run.Goals as goal

pub over-lent-requires : goal.over-lent-requires
over-lent-requires c = rw (c.new-pool.ensures, c.new-memory.ensures.empty) (record { agree = new_stands })
END

cat >"$work/crates/cells/src/numbers.rt" <<'END'
//! Cells with numbers: those of a command over pages, and a plain map.
ghost use Rattle.std.specs.Prelude.{◌≡◌, ◌<◌};

use eu_base::{Addr, Area, MemFault, Memory};
use space_memory::Lent;
use std::alloc::Global;
use std::collections::BTreeMap;

/// Numbers under the numbers of cells.
pub trait Numbers {
    fn number(&mut self, cell: u16) -> Result<u64, MemFault>
        requires { cell < 16384 };

    fn set_number(&mut self, cell: u16, number: u64) -> Result<(), MemFault>
        requires { cell < 16384 };
}

fn at(cell: u16) -> Addr
    ensures { result.cell ≡ cell }
{
    Addr {
        area: Area::Run,
        cell,
    }
}

impl Numbers for Lent<'_> {
    #[inline(always)]
    fn number(&mut self, cell: u16) -> Result<u64, MemFault> {
        self.cell(at(cell))
    }

    #[inline(always)]
    fn set_number(&mut self, cell: u16, number: u64) -> Result<(), MemFault> {
        self.set_cell(at(cell), number)
    }
}

/// A plain map from cells to numbers. A cell that was never written holds 0.
#[derive(Drop)]
pub struct Plain {
    cells: BTreeMap<u16, u64>,
}

impl Plain {
    pub fn new(alloc: Global) -> Plain {
        Plain {
            cells: BTreeMap::new(alloc),
        }
    }
}

impl Numbers for Plain {
    fn number(&mut self, cell: u16) -> Result<u64, MemFault> {
        Ok(self.cells.get(&cell).copied().unwrap_or(0))
    }

    fn set_number(&mut self, cell: u16, number: u64) -> Result<(), MemFault> {
        match self.cells.insert(cell, number) {
            Ok(_) => Ok(()),
            Err(_) => Err(MemFault::NoMemory),
        }
    }
}
END

cat >"$work/crates/cells/src/main.rt" <<'END'
//! Cells that are written, and read or written again.
#![tactic(auto)]
ghost use Rattle.std.specs.Prelude.{◌<◌};

mod numbers;

use crate::numbers::{Numbers, Plain};
use eu_base::MemFault;
use page_pool::Pool;
use space_memory::SpaceMemory;
use std::env;
use std::process::ExitCode;

fn cell(turn: u32) -> u16
    ensures { result < 16384 }
{
    (turn % 1_000) as u16
}

fn write<M: Numbers>(memory: &mut M, turns: u32) -> Result<(), MemFault> {
    for turn in 0..turns {
        memory.set_number(cell(turn), u64::from(turn))?;
    }
    Ok(())
}

fn write_and_read<M: Numbers>(memory: &mut M, turns: u32) -> Result<u64, MemFault> {
    let mut sum = 0;
    for turn in 0..turns {
        memory.set_number(cell(turn), u64::from(turn))?;
        sum ^= memory.number(cell(turn / 2))?;
    }
    Ok(sum)
}

// Fills the cells, and then writes them so often, or writes and reads them.
fn exercise<M: Numbers>(memory: &mut M, reads: bool, turns: u32) -> Result<u64, MemFault> {
    write(memory, 1_000)?;
    if !reads {
        write(memory, turns)?;
        return Ok(0);
    }
    let sum = write_and_read(memory, turns)?;
    Ok(sum)
}

// The words: `pages` or `plain`, `write` or `both`, and a third one for 100,000 turns more.
fn run(rt: &HostRuntime) -> Option<u64> {
    let mut words = Vec::new(rt.alloc());
    for word in env::args(rt).ok()?.skip(1) {
        words.push(word).ok()?;
    }
    let turns = if words.len() > 2 { 110_000 } else { 10_000 };
    let reads = words.get(1)?.as_str() == "both";
    if words.get(0)?.as_str() == "plain" {
        let mut plain = Plain::new(rt.alloc());
        return exercise(&mut plain, reads, turns).ok();
    }
    let mut pool = Pool::new(rt.alloc());
    let mut memory = SpaceMemory::new(rt.alloc());
    let mut lent = memory.over(&mut pool);
    exercise(&mut lent, reads, turns).ok()
}

fn main(rt: HostRuntime) -> ExitCode {
    match run(&rt) {
        Some(sum) => ExitCode::from((sum % 2) as u8),
        None => ExitCode::from(9),
    }
}
END

(cd "$work/crates/cells" && rt run -- plain write) >"$work/log" 2>&1 || {
    cat "$work/log" >&2
    exit 1
}

# instructions that the program executes for a turn
turn() {
    local few many
    few=$(instructions "$@")
    many=$(instructions "$@" more)
    echo $(((many - few) / 100000))
}

# instructions that the program executes with these words
instructions() {
    valgrind --tool=callgrind --callgrind-out-file=/dev/null "$work/crates/cells/out/cells" "$@" 2>&1 >/dev/null |
        sed -n 's/.*Collected : \([0-9]*\).*/\1/p'
}

report() {
    printf '%s: %s instructions over pages, %s in a plain map, ratio %s\n' "$1" "$2" "$3" "$(echo "scale=2; $2 / $3" | bc -l)"
}

pages=$(turn pages write)
plain=$(turn plain write)
report write "$pages" "$plain"
report read $(($(turn pages both) - pages)) $(($(turn plain both) - plain))
