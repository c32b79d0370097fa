#!/usr/bin/env bash
# Random calls on pool, tables and data spaces over a fake disk, with settles and evictions, against a plain model: so many calls
# (the first argument, else 100,000) from a seed (the second). It is run over the sources as they stand, without a proof, in a folder
# of its own, and is no part of the gate. It ends with status 0 where each byte that was read is the model's.
set -euo pipefail
top="$(cd "$(dirname "${BASH_SOURCE[0]}")/.." && pwd)"
calls="${1:-100000}"
seed="${2:-1}"
work="$(mktemp -d)"
trap 'rm -rf "$work"' EXIT
mkdir -p "$work/crates/pages_random/src"
for crate in containers task_numbers eu_base page_pool page_table data_space; do
    cp -a "$top/crates/$crate" "$work/crates/"
    grep "^$crate:" "$top/crates.txt" >>"$work/crates.txt"
done
echo "pages_random: data_space page_table page_pool containers eu_base" >>"$work/crates.txt"
cp "$top/HANDLES" "$work/"
rm -rf "$work"/crates/*/out

cat >"$work/crates/pages_random/src/lib.rt" <<'END'
//! Random calls on data spaces over a fake disk.
#![tactic(auto)]
#[cfg(test)]
mod tests;
END

sed -e "s/@CALLS@/$calls/; s/@SEED@/$seed/" >"$work/crates/pages_random/src/tests.rt" <<'END'
//! This file is run and not proved.
use data_space::DataSpace;
use eu_base::{Backing, MemFault};
use page_pool::Pool;
use std::alloc::Global;

const SPACES: usize = 6;
const BYTES: usize = 262144;

/// Blocks that were settled; each is written once.
#[derive(Drop)]
struct Blocks {
    kept: Vec<[u8; 512]>,
}

impl Backing for Blocks {
    ghost use Rattle.std.specs.Prelude.{None, true, refl};
    ghost use Rattle.std.proofs.Common.{le_refl};
    ghost holds = { λ _ _. true };
    ghost tells = { λ _. None };
    ghost faults = { λ _. 0 };
    ghost follows = { λ _ _. Unit {0} };
    ghost same_told = { λ _ _ _. refl };
    ghost same_held = { λ _ _ _ _ held. held };
    ghost later = { λ _ _ _. le_refl 0 };
    ghost reflexive = { λ _. record {} };
    ghost transitive = { λ _ _ _ _ _. record {} };

    fn load(&mut self, block: u32, into: &mut [u8; 512]) -> Result<(), MemFault> {
        into.copy_from_slice(&self.kept[block as usize]);
        Ok(())
    }
}

/// A space, and what it should hold.
#[derive(Drop)]
struct Both {
    space: DataSpace,
    bytes: Vec<u8>,
}

#[derive(Drop)]
struct World {
    alloc: Global,
    random: u64,
    pool: Pool,
    blocks: Blocks,
    spaces: Vec<Both>,
    settles: u32,
    loads: u32,
}

impl World {
    fn below(&mut self, bound: u32) -> u32 {
        self.random = self.random.wrapping_mul(6364136223846793005).wrapping_add(1442695040888963407);
        ((self.random >> 33) as u32) % bound
    }

    // A range of at most 700 bytes, mostly in a few pages that lie at the ends of root and tables.
    fn range(&mut self) -> (usize, usize) {
        let pages = [0usize, 1, 2, 127, 128, 129, 255, 256, 383, 384, 510, 511];
        let which = self.below(13) as usize;
        let page = if which < 12 { pages[which] } else { self.below(512) as usize };
        let at = page * 512 + self.below(512) as usize;
        let len = self.below(700) as usize;
        (at, if at + len > BYTES { BYTES - at } else { len })
    }

    fn write(&mut self, k: usize) -> bool {
        let (at, len) = self.range();
        let first = self.below(256) as u8;
        let mut from = Vec::new(self.alloc);
        for n in 0..len {
            if from.push(first.wrapping_add((n % 256) as u8)).is_err() {
                return false;
            }
        }
        let both = &mut self.spaces[k];
        if both.space.write(&mut self.pool, at as u32, &from, &mut self.blocks).is_err() {
            return false;
        }
        both.bytes[at..at + len].copy_from_slice(&from);
        true
    }

    fn read(&mut self, k: usize) -> bool {
        let (at, len) = self.range();
        let mut buffer = [0u8; 700];
        let both = &mut self.spaces[k];
        if both.space.read(&mut self.pool, at as u32, &mut buffer[..len], &mut self.blocks).is_err() {
            return false;
        }
        buffer[..len] == both.bytes[at..at + len]
    }

    fn copy(&mut self, k: usize, to: usize) -> bool {
        if k == to {
            return true;
        }
        let Ok(space) = self.spaces[k].space.copy(self.alloc, &mut self.pool) else { return false };
        let mut bytes = Vec::new(self.alloc);
        for byte in &self.spaces[k].bytes {
            if bytes.push(*byte).is_err() {
                return false;
            }
        }
        let old = std::mem::replace(&mut self.spaces[to], Both { space, bytes });
        old.space.forget(&mut self.pool);
        true
    }

    fn empty(&mut self, k: usize) -> bool {
        let old = std::mem::replace(&mut self.spaces[k].space, DataSpace::nil());
        old.forget(&mut self.pool);
        self.spaces[k].bytes.fill(0);
        true
    }

    fn is_root(&self, p: u32) -> bool {
        self.spaces.iter().any(|both| both.space.root() == Some(p))
    }

    // All changed pages of one sort get a block: contents (0), tables (1) or roots (2).
    fn settle_some(&mut self, sort: u32) -> bool {
        for p in 0..self.pool.past() {
            if !self.pool.lives(p) || !self.pool.changed(p) {
                continue;
            }
            let this = if !self.pool.pinned(p) { 0 } else if self.is_root(p) { 2 } else { 1 };
            if this != sort {
                continue;
            }
            let mut block = [0u8; 512];
            self.pool.peek(p, 0, &mut block);
            let number = self.blocks.kept.len() as u32;
            if self.blocks.kept.push(block).is_err() {
                return false;
            }
            self.pool.settle(p, number);
            self.settles += 1;
            if self.pool.home(p) != Some(number) || self.pool.changed(p) {
                return false;
            }
        }
        true
    }

    fn settle(&mut self) -> bool {
        self.settle_some(0) && self.settle_some(1) && self.settle_some(2)
    }

    fn step(&mut self) -> bool {
        let k = self.below(SPACES as u32) as usize;
        match self.below(100) {
            0..=39 => self.write(k),
            40..=94 => self.read(k),
            95 | 96 => {
                let to = self.below(SPACES as u32) as usize;
                self.copy(k, to)
            }
            97 => self.below(8) > 0 || self.empty(k),
            _ => self.below(3) > 0 || self.settle(),
        }
    }
}

fn new_world(alloc: Global, clean: u32) -> Option<World> {
    let mut spaces = Vec::new(alloc);
    for _ in 0..SPACES {
        let mut bytes = Vec::new(alloc);
        for _ in 0..BYTES {
            bytes.push(0).ok()?;
        }
        spaces.push(Both { space: DataSpace::nil(), bytes }).ok()?;
    }
    Some(World {
        alloc,
        random: @SEED@,
        pool: Pool::paged(alloc, clean).ok()?,
        blocks: Blocks { kept: Vec::new(alloc) },
        spaces,
        settles: 0,
        loads: 0,
    })
}

// The first call that went wrong, or 0; and that pages were settled at all.
fn wrong_call(alloc: Global, clean: u32) -> u32 {
    let Some(mut world) = new_world(alloc, clean) else { return 1 };
    for call in 1..@CALLS@ + 1 {
        if !world.step() {
            return call;
        }
    }
    if world.settles == 0 { 2 } else { 0 }
}

#[test]
fn each_byte_is_the_models_with_one_page_kept(rt: HostRuntime) {
    assert_eq!(rt; wrong_call(rt.alloc(), 1), 0);
}

#[test]
fn each_byte_is_the_models_with_four_pages_kept(rt: HostRuntime) {
    assert_eq!(rt; wrong_call(rt.alloc(), 4), 0);
}
END

cd "$work/crates/pages_random"
rt try --test --steps 4000000000 --seconds 600
