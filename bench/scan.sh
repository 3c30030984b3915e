#!/usr/bin/env bash
# How long the scan of a directory's content takes: of 1, 2 and 4 MiB of FF bytes, in which no FID begins anywhere, and of as many
# zeros, where each offset has a tag that is whole and no FID's. Twice the content should take about twice the time.
# It copies the repository's crates into a temporary folder, adds a program there, and proves, builds and runs that.
set -euo pipefail
top=$(cd "$(dirname "$0")/.." && pwd)
work=$(mktemp -d)
trap 'rm -rf "$work"' EXIT
mkdir "$work/crates"
for crate in udf_model udf_field udf_text udf_file_model udf_dir; do
    mkdir "$work/crates/$crate"
    cp -r "$top/crates/$crate/"{src,specs,proofs} "$work/crates/$crate/"
    grep "^$crate:" "$top/crates.txt" >> "$work/crates.txt"
done
echo "scan_bench: udf_dir" >> "$work/crates.txt"
mkdir -p "$work/crates/scan_bench/src"
cat > "$work/crates/scan_bench/src/main.rt" <<'RT'
//! Times the scan of hostile contents.
#![tactic(auto)]

use std::io;
use std::time::Instant;
use udf_dir::scan;

fn time_scan(rt: &(impl Clock + Print + AllocGlobal), byte: u8, mebibytes: usize) -> io::Result<()>
    requires { mebibytes ≤ 4 }
{
    let content = vec![in rt.alloc(); byte; mebibytes * 1_048_576]?;
    let start = Instant::now(rt)?;
    let mut found = 0u64;
    for (_, fid) in scan(&content, 4096) {
        found = found.wrapping_add(fid.bytes().len() as u64);
    }
    let took = start.elapsed(rt)?.as_micros();
    println!(rt; "{mebibytes} MiB of {byte}: {found} bytes of FIDs, {took} microseconds")
}

fn main(rt: HostRuntime) -> io::Result<()> {
    time_scan(&rt, 255, 1)?;
    time_scan(&rt, 255, 2)?;
    time_scan(&rt, 255, 4)?;
    time_scan(&rt, 0, 1)?;
    time_scan(&rt, 0, 2)?;
    time_scan(&rt, 0, 4)
}
RT
sed -i 's/^use std::io;/ghost use Rattle.std.specs.Prelude.{◌≤◌};\n\nuse std::io;\nuse std::rt::Clock;/' "$work/crates/scan_bench/src/main.rt"
cd "$work/crates/scan_bench"
rt fmt
rt run
