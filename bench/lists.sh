#!/usr/bin/env bash
# How long the list of an entry takes to read: one of 400,000 runs of one block each, in an entry and 800 allocation extents, half
# and twice of that, and one of a hundred runs that make more than 100 GB. Twice the runs should take about twice the time, and the
# large runs no time to speak of. It copies the crates into a temporary folder, adds a program there, and proves, builds and runs
# that.
set -euo pipefail
top=$(cd "$(dirname "$0")/.." && pwd)
work=$(mktemp -d)
trap 'rm -rf "$work"' EXIT
mkdir "$work/crates"
for crate in udf_model udf_field udf_text udf_file_model udf_layer udf_outside udf_entry; do
    mkdir "$work/crates/$crate"
    cp -r "$top/crates/$crate/"{src,specs,proofs} "$work/crates/$crate/"
    rm -f "$work/crates/$crate/src/tests.rt"
    rm -rf "$work/crates/$crate/proofs/tests"
    sed -i '/^#\[cfg(test)\]$/d; /^mod tests;$/d' "$work/crates/$crate/src/lib.rt"
    grep "^$crate:" "$top/crates.txt" >> "$work/crates.txt"
done
echo "lists_bench: udf_entry udf_layer udf_outside udf_file_model udf_field udf_model anyhow" >> "$work/crates.txt"
program=$work/crates/lists_bench
mkdir -p "$program/src" "$program/proofs/write_extents"
cat > "$program/proofs/Lib.antt" <<'ANTT'
pub mod Inside
ANTT
cat > "$program/proofs/Inside.antt" <<'ANTT'
-- Where the blocks of the partition stand.
use Rattle.std.proofs.Common.{◌≡◌, ℕ, ◌/◌, ◌*◌, ◌<◌, ◌≤◌, Some, arith}
use Rattle.std.proofs.Math.Nat.{le-div_iff_mul-le}
use Rattle.udf_field.specs.declared.address.Addr.{Addr}
use Rattle.udf_file_model.specs.Address.{lone_places}
use Rattle.udf_file_model.specs.Place.{physical_place}
use Rattle.udf_layer.specs.Lone.{lone_is}
use Rattle.udf_layer.specs.Physicals.{physical_is}

pub inside : (a : Addr) (s blocks size : ℕ) → lone_places 0 (physical_place 0 blocks) a ≡ Some s → blocks * 4096 ≤ size → s < size / 4096
inside a s blocks size h room =
    let p = physical_is 0 blocks a.block s (lone_is 0 (physical_place 0 blocks) a s h).1 in
    let q : blocks ≤ size / 4096 = (le-div_iff_mul-le {k = 4096} {x = blocks} {y = size} (omega arith)).1 room in
    omega (arith, p.0, p.1, q)
ANTT
cat > "$program/proofs/write_extents/Invariants.antt" <<'ANTT'
use Rattle.udf_outside.specs.Files.{IsWritable}
use Rattle.udf_outside.specs.Memory.{files_in}
use Rattle.udf_outside.specs.declared.bench.Role.TheVariants.{Image}
use Rattle.lists_bench.proofs.write_extents.Given as goal

abbrev pub invariant-loop-i : goal.invariant-loop-i
invariant-loop-i l = IsWritable Image (files_in l.bench)
ANTT
cat > "$program/src/main.rt" <<'RT'
//! Times the reading of large lists.
#![tactic(auto)]

ghost use Rattle.std.specs.Prelude.{◌+◌, ◌*◌, ◌^◌, ◌<◌, ◌≤◌, IfSome};
ghost use Rattle.udf_outside.specs.Files.{IsWritable};
ghost use Rattle.udf_outside.specs.Memory.{files_in};
ghost use Rattle.udf_outside.specs.declared.bench.Role.TheVariants.{Image};

use std::alloc::Global;
use std::rt::Clock;
use std::time::Instant;
use udf_entry::list_of;
use udf_field::{Addr, FieldsMut, Short, retag};
use udf_layer::{One, Physical};
use udf_outside::{Access, Bench, Failed, MemBench, Role};

// Puts a short descriptor.
fn put(block: &mut [u8; 4096], at: usize, kind: u8, length: u32, to: u32)
    requires room { at + 8 ≤ 4096 }
    requires kind { kind ≤ 3 }
    requires length { length < 2 ^ 30 }
{
    let mut fields = FieldsMut::over(block);
    fields.put_short(at, Short { kind, length, block: to });
}

// Puts so many descriptors of a length, each so many blocks after the one before.
fn put_runs(block: &mut [u8; 4096], at: usize, many: u32, length: u32, first: u32, step: u32)
    requires room { at + 8 * many ≤ 4096 }
    requires length { length < 2 ^ 30 }
{
    for i in 0..many {
        put(block, at + 8 * i as usize, 0, length, first.wrapping_add(step.wrapping_mul(i)));
    }
}

// An allocation extent of 500 single blocks that goes on in the next block, if it is not the last.
fn extent(block: &mut [u8; 4096], at: u32, first: u32, last: bool) {
    block.fill(0);
    put_runs(block, 24, 500, 4096, first, 2);
    if !last {
        put(block, 4024, 3, 4096, at.wrapping_add(1));
    }
    let mut fields = FieldsMut::over(block);
    fields.put_u16(0, 258);
    fields.put_u32(20, if last { 4000 } else { 4008 });
    retag(block, 4016, at);
}

fn write_extents(bench: &mut MemBench, block: &mut [u8; 4096], many: u32) -> Result<(), Failed>
    requires { IsWritable Image (files_in bench.old) }
    ensures { IsWritable Image (files_in bench.new) }
{
    for i in 0..many {
        let at = 35u32.wrapping_add(i);
        extent(block, at, i.wrapping_mul(1000).wrapping_add(4096), i.wrapping_add(1) == many);
        if at as u64 * 4096 <= bench.length(Role::Image)? {
            bench.write_at(Role::Image, at as u64 * 4096, block)?;
        }
    }
    Ok(())
}

// An entry at block 34 with so many descriptors, whose information length is large.
fn entry(block: &mut [u8; 4096], bytes: u32) {
    let mut fields = FieldsMut::over(block);
    fields.put_u16(0, 266);
    fields.put_u64(56, 1_000_000_000_000);
    fields.put_u32(212, bytes);
    retag(block, 2000, 34);
}

#[tactic(auto, using(crate::proofs::Inside::inside), unfolding(udf_model::specs::Size::is_size))]
fn time_list(rt: &(impl Clock + Print + AllocGlobal), name: &str, bench: &mut MemBench, block: &[u8; 4096], blocks: u32) -> anyhow::Result<()>
    requires { IsWritable Image (files_in bench.old) }
{
    let parts = One::new(Physical::new(0, blocks));
    let size = bench.length(Role::Image).ok();
    let start = Instant::now(rt)?;
    if let Some(size) = size {
        if blocks as u64 * 4096 <= size {
            let list = list_of(rt.alloc(), bench, &parts, Addr { part: 0, block: 34 }, block);
            let took = start.elapsed(rt)?.as_micros();
            if let Ok(list) = list {
                let (runs, extents, good, bytes) = (list.len(), list.extents(), list.good(), list.good_length());
                println!(rt; "{name}: {runs} runs, {extents} allocation extents, {bytes} bytes, good {good}, {took} microseconds")?;
            }
        }
    }
    Ok(())
}

// A bench over an image of so many bytes, zeros all.
fn opened(alloc: Global, bytes: u64) -> Option<MemBench>
    ensures { IfSome result (λ bench. IsWritable Image (files_in bench)) }
{
    let mut bench = MemBench::sparse(alloc, bytes);
    match bench.attach(Role::Image, "a.img", Access::Write) {
        Ok(()) => Some(bench),
        Err(_) => None,
    }
}

fn time_runs(rt: &(impl Clock + Print + AllocGlobal), bytes: u64, blocks: u32, many: u32) -> anyhow::Result<()> {
    let mut block = [0u8; 4096];
    if let Some(mut bench) = opened(rt.alloc(), bytes) {
        let _ = write_extents(&mut bench, &mut block, many);
        block.fill(0);
        put(&mut block, 216, 3, 4096, 35);
        entry(&mut block, 8);
        time_list(rt, "single blocks", &mut bench, &block, blocks)?;
    }
    Ok(())
}

fn time_large(rt: &(impl Clock + Print + AllocGlobal), bytes: u64, blocks: u32) -> anyhow::Result<()> {
    let mut block = [0u8; 4096];
    if let Some(mut bench) = opened(rt.alloc(), bytes) {
        put_runs(&mut block, 216, 100, 1_073_737_728, 4096, 262_144);
        entry(&mut block, 800);
        time_list(rt, "large runs", &mut bench, &block, blocks)?;
    }
    Ok(())
}

fn main(rt: HostRuntime) -> anyhow::Result<()> {
    time_runs(&rt, 17_179_869_184, 4_194_304, 400)?;
    time_runs(&rt, 17_179_869_184, 4_194_304, 800)?;
    time_runs(&rt, 17_179_869_184, 4_194_304, 1600)?;
    time_large(&rt, 1_099_511_627_776, 268_435_456)
}
RT
cd "$program"
rt fmt
rt run
