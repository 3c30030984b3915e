#!/bin/sh
# Times the claims on large lists of runs. It makes a program of its own in a temporary folder, beside copies of the
# crates that it stands on, proves and builds it, and runs each case in a process of its own.
#
#   sh bench/claims.sh [CASE ..]      at the top of the repository; docs/BENCHMARKS.md says what the cases are
set -eu

top=$(pwd)
work=$(mktemp -d)
trap 'rm -rf "$work"' EXIT

mkdir -p "$work/crates/claims_bench/src"
for crate in udf_model udf_field udf_claims; do
    mkdir "$work/crates/$crate"
    for part in src specs proofs; do
        cp -r "$top/crates/$crate/$part" "$work/crates/$crate/"
    done
done
grep -E '^udf_(model|field|claims):' "$top/crates.txt" >"$work/crates.txt"
echo 'claims_bench: udf_claims udf_field udf_model byteorder anyhow' >>"$work/crates.txt"

cat >"$work/crates/claims_bench/src/main.rt" <<'PROGRAM'
//! Lists of runs by the name of a case, and how long each step took.
#![tactic(auto)]

ghost use Rattle.std.specs.Prelude.{◌≡◌};

use std::env;
use std::time::Instant;
use udf_claims::{Claims, NoMemory};
use udf_field::Addr;

// Runs of one length, each so many blocks after the one before, and the owner of each so many above.
#[derive(Clone, Copy)]
struct Row {
    runs: u32,
    step: u32,
    blocks: u32,
    class: u8,
    owners: u64,
}

fn at(block: u32) -> Addr
    ensures { result.block ≡ block }
{
    Addr { part: 0, block }
}

fn owner(i: u32, row: &Row) -> u64 {
    (i as u64).wrapping_mul(row.owners)
}

fn add_row(claims: &mut Claims, row: &Row) -> Result<(), NoMemory> {
    for i in 0..row.runs {
        let block = i.wrapping_mul(row.step);
        if block < 3_000_000_000 && row.blocks < 1_000_000_000 {
            claims.add(owner(i, row), at(block), row.blocks, row.class)?;
        }
    }
    Ok(())
}

// How many of so many addresses, one each few blocks, somebody wins.
fn won(claims: &Claims, count: u32, step: u32) -> u32 {
    let mut won = 0u32;
    for i in 0..count {
        if claims.winner(at(i.wrapping_mul(step))).is_some() {
            won = won.wrapping_add(1);
        }
    }
    won
}

// How many of a row's runs lose a block.
fn lossy(claims: &Claims, row: &Row) -> u32 {
    let mut lossy = 0u32;
    for i in 0..row.runs {
        let block = i.wrapping_mul(row.step);
        if block < 3_000_000_000 && row.blocks < 1_000_000_000 && claims.lost(owner(i, row), at(block), row.blocks).is_some() {
            lossy = lossy.wrapping_add(1);
        }
    }
    lossy
}

// How many stretches are claimed.
fn stretches(claims: &Claims) -> u32 {
    let mut count = 0u32;
    let mut block = 0;
    for _ in 0u64..4_294_967_296 {
        match claims.claimed_from(at(block)) {
            Some(next) => {
                count = count.wrapping_add(1);
                block = next.at.block + next.blocks;
            }
            None => return count,
        }
    }
    count
}

fn time(rt: &HostRuntime, name: &str, first: &Row, second: &Row) -> anyhow::Result<()> {
    let mut claims = Claims::new(rt.alloc());
    let start = Instant::now(rt)?;
    add_row(&mut claims, first)?;
    add_row(&mut claims, second)?;
    let added = start.elapsed(rt)?.as_secs_f64();
    let start = Instant::now(rt)?;
    let won = won(&claims, 1_000_000, 2);
    let asked = start.elapsed(rt)?.as_secs_f64();
    let start = Instant::now(rt)?;
    let lossy = lossy(&claims, first);
    let lost = start.elapsed(rt)?.as_secs_f64();
    let start = Instant::now(rt)?;
    let stretches = stretches(&claims);
    let walked = start.elapsed(rt)?.as_secs_f64();
    println!(rt; "{name}: add {added:.2} s, a million winners {asked:.2} s ({won} won), lost of the first runs {lost:.2} s ({lossy} lose), walk {walked:.2} s ({stretches} stretches)")?;
    Ok(())
}

fn make_row(runs: u32, step: u32, blocks: u32, class: u8, owners: u64) -> Row {
    Row {
        runs,
        step,
        blocks,
        class,
        owners,
    }
}

fn main(rt: HostRuntime) -> anyhow::Result<()> {
    let singles = make_row(100_000, 20, 1, 1, 3);
    let none = make_row(0, 1, 1, 1, 1);
    for case in env::args(&rt)?.skip(1) {
        match case.as_str() {
            "apart" => time(&rt, "apart", &make_row(1_000_000, 8, 4, 5, 1), &none)?,
            "touching" => time(&rt, "touching", &make_row(1_000_000, 4, 4, 5, 0), &none)?,
            "cut" => time(&rt, "cut", &singles, &make_row(100_000, 0, 2_000_000, 5, 1))?,
            "shared" => time(&rt, "shared", &make_row(100_000, 20, 1, 5, 3), &make_row(100_000, 0, 2_000_000, 5, 1))?,
            "repeated" => time(&rt, "repeated", &make_row(100_000, 20, 1, 5, 3), &make_row(100_000, 0, 2_000_000, 5, 0))?,
            "shifted" => time(&rt, "shifted", &make_row(100_000, 3, 1_000_000, 5, 1), &none)?,
            _ => println!(rt; "no such case")?,
        }
    }
    Ok(())
}
PROGRAM

cd "$work/crates/claims_bench"
rt run >"$work/log" 2>&1 || { cat "$work/log"; exit 1; }
timer=
if [ -x /usr/bin/time ]; then
    timer='/usr/bin/time -f peak:%MkB'
fi
for case in ${*:-apart touching cut shared repeated shifted}; do
    $timer out/claims_bench "$case"
done
