#!/usr/bin/env bash
# How long the survey of a volume's files takes, and the most memory that the process has had: the volumes of bench/survey.py, each
# three times. Where e2fsprogs are there, e2fsck checks an ext4 file system with as many empty files as the first volume.
# It copies the crates into a temporary folder, with what earlier checks of them kept, adds a program there, and proves, builds
# and runs that. The largest image is sparse, and the kept work of the crates is copied: it wants 6 GB of room.
#
#   bash bench/survey.sh [CASE:COUNT ..]      at the top of the repository
set -euo pipefail
top=$(cd "$(dirname "$0")/.." && pwd)
work=$(mktemp -d)
trap 'rm -rf "$work"' EXIT
mkdir "$work/crates"
for crate in udf_model udf_field udf_claims udf_text udf_file_model udf_tree_model udf_dir udf_outside udf_volume_model udf_layer \
    udf_entry udf_volume udf_found udf_held udf_kept udf_contents udf_dues udf_tree; do
    cp -r "$top/crates/$crate" "$work/crates/"
    grep "^$crate:" "$top/crates.txt" >> "$work/crates.txt"
done
echo "survey_bench: udf_tree udf_volume udf_layer udf_outside udf_file_model udf_field udf_model anyhow" >> "$work/crates.txt"
program=$work/crates/survey_bench
mkdir -p "$program/src" "$program/proofs/files_of" "$program/proofs/survey_volume"
cat > "$program/proofs/Lib.antt" <<'ANTT'
pub mod Inside
ANTT
cat > "$program/proofs/Inside.antt" <<'ANTT'
-- Where the blocks of the partition stand, and that the volume was opened over its image.
use Rattle.std.proofs.Common.{◌≡◌, ℕ, ◌+◌, ◌/◌, ◌<◌, ◌≤◌, Some, arith, subst, sym}
use Rattle.udf_field.specs.declared.address.Addr.{Addr}
use Rattle.udf_file_model.specs.Address.{lone_places}
use Rattle.udf_file_model.specs.Place.{physical_place}
use Rattle.udf_layer.specs.Lone.{lone_is}
use Rattle.udf_layer.specs.Physicals.{physical_is}
use Rattle.udf_outside.specs.Files.{Files, IsAttached}
use Rattle.udf_outside.specs.declared.bench.Role.TheVariants.{Image}
use Rattle.udf_volume.specs.declared.opened.Opened.{Opened}
use Rattle.udf_volume.specs.Over.{IsOver}
use Rattle.udf_volume.specs.Taken.{IsLawful}
use Rattle.udf_volume.proofs.Openings.{open_over}

pub inside : (a : Addr) (s start blocks first many limit : ℕ) → lone_places 0 (physical_place start blocks) a ≡ Some s
    → start ≡ first → blocks ≡ many → first + many ≤ limit → s < limit
inside a s start blocks first many limit h start_is blocks_is room =
    let p = physical_is start blocks a.block s (lone_is 0 (physical_place start blocks) a s h).1 in omega (arith, p.0, p.1, start_is, blocks_is, room)

pub over : (opened : Opened) (files : Files) (bytes : ℕ) → IsAttached Image files → bytes ≡ files.image.size
    → IsLawful 2048 (bytes / 2048) opened → IsOver opened.volume files
over opened files bytes attached is lawful = (open_over opened files 2048 bytes attached (omega arith) is lawful).over

pub sized : (opened : Opened) (bytes : ℕ) → IsLawful 2048 (bytes / 2048) opened → opened.volume.size ≡ 2048
sized opened bytes lawful = lawful.bounded.sized

pub at_size : (s bytes size : ℕ) → size ≡ 2048 → s < bytes / 2048 → s < bytes / size
at_size s bytes size is h = subst (λ n. s < bytes / n) (sym is) h
ANTT
cat > "$program/proofs/files_of/Answers.antt" <<'ANTT'
use Rattle.survey_bench.proofs.Inside.{inside, at_size}
use Rattle.survey_bench.proofs.files_of.Goals as goal

pub file_set-requires-clause-placed : goal.file_set-requires-clause-placed
file_set-requires-clause-placed g c a s h =
    at_size s _ _ c.requires.size
    (inside a s _ _ _ _ _ h c.partition_of-parts.ensures.start c.partition_of-parts.ensures.blocks c.requires.inside)
ANTT
cat > "$program/proofs/survey_volume/Answers.antt" <<'ANTT'
use Rattle.survey_bench.proofs.Inside.{inside}
use Rattle.survey_bench.proofs.survey_volume.Goals as goal

pub survey-requires-clause-placed : goal.survey-requires-clause-placed
survey-requires-clause-placed g c a s h =
    inside a s _ _ _ _ _ h c.partition_of-parts.ensures.start c.partition_of-parts.ensures.blocks c.requires.inside
ANTT
cat > "$program/src/main.rt" <<'RT'
//! Times the survey of the files of a volume in a real image.
#![tactic(auto)]

ghost use Rattle.std.specs.Prelude.{◌≡◌, ◌+◌, ◌/◌, ◌<◌, ◌^◌, ◌≤◌, IfOk};
ghost use Rattle.udf_outside.specs.Files.{IsAttached};
ghost use Rattle.udf_volume.specs.Over.{IsOver};
ghost use Rattle.udf_outside.specs.declared.bench.Role.TheVariants.{Image};

use anyhow::Context;
use std::alloc::Global;
use std::env;
use std::rt::Clock;
use std::time::Instant;
use udf_layer::{LayerStop, One, Physical};
use udf_outside::{Access, Bench, FileBench, Role};
use udf_tree::{Survey, survey};
use udf_volume::{FileSet, Volume, file_set, open_layout};

const SIZE: u32 = 2048;

// The partition of a volume.
fn partition_of(volume: &Volume) -> One<Physical>
    requires { volume.now.start + volume.now.length < 2 ^ 32 }
    ensures start { result.layer.start ≡ volume.now.start }
    ensures blocks { result.layer.blocks ≡ volume.now.length }
{
    One::new(Physical::new(volume.start, volume.length))
}

// The volume of an image of so many bytes, whose partition lies in it.
#[tactic(auto, using(crate::proofs::Inside::over, crate::proofs::Inside::sized))]
fn open<B: Bench>(alloc: Global, bench: &mut B, bytes: u64) -> Result<Volume, LayerStop>
    requires attached { IsAttached Image (B.files bench.old) }
    requires sized { bytes ≡ (B.files bench.old).image.size }
    ensures size { IfOk result (λ v. v.size ≡ 2048) }
    ensures over { IfOk result (λ v. IsOver v (B.files bench.new)) }
    ensures inside { IfOk result (λ v. v.start + v.length ≤ (B.files bench.new).image.size / 2048) }
    ensures few { IfOk result (λ v. v.start + v.length < 2 ^ 32) }
{
    let volume = open_layout(alloc, bench, SIZE, bytes)?.volume;
    let end = volume.start as u64 + volume.length as u64;
    if end > 4_294_967_295 || end > bytes / 2048 {
        return Err(LayerStop::Fault);
    }
    Ok(volume)
}

// The file set of a volume.
fn files_of<B: Bench>(alloc: Global, bench: &mut B, volume: &Volume) -> Result<FileSet, LayerStop>
    requires over { IsOver volume.now (B.files bench.old) }
    requires size { volume.now.size ≡ 2048 }
    requires inside { volume.now.start + volume.now.length ≤ (B.files bench.old).image.size / 2048 }
    requires few { volume.now.start + volume.now.length < 2 ^ 32 }
    ensures files { B.files bench.new ≡ B.files bench.old }
{
    let parts = partition_of(volume);
    file_set(alloc, bench, volume, &parts)
}

// The survey of the files of a volume.
#[tactic(auto, using(crate::proofs::Inside::inside), unfolding(udf_model::specs::Size::is_size))]
fn survey_volume<B: Bench>(
    alloc: Global,
    bench: &mut B,
    volume: &Volume,
    files: &FileSet,
) -> Result<Survey, LayerStop>
    requires attached { IsAttached Image (B.files bench.old) }
    requires inside { volume.now.start + volume.now.length ≤ (B.files bench.old).image.size / 2048 }
    requires few { volume.now.start + volume.now.length < 2 ^ 32 }
{
    let parts = partition_of(volume);
    survey(alloc, bench, &parts, SIZE, files)
}

fn main(rt: HostRuntime) -> anyhow::Result<()> {
    let name = env::args(&rt)?.nth(1).context("no name")?;
    let mut bench = FileBench::new(rt.clone()?);
    bench
        .attach(Role::Image, &name, Access::Read)
        .ok()
        .context("no image")?;
    let bytes = bench.length(Role::Image).ok().context("no length")?;
    let volume = open(rt.alloc(), &mut bench, bytes)
        .ok()
        .context("no volume")?;
    let files = files_of(rt.alloc(), &mut bench, &volume)
        .ok()
        .context("no file set")?;
    let start = Instant::now(&rt)?;
    let survey = survey_volume(rt.alloc(), &mut bench, &volume, &files)
        .ok()
        .context("no files")?;
    let took = start.elapsed(&rt)?.as_micros();
    let kept = survey.kept();
    println!(&rt; "{kept} kept, {took} microseconds")?;
    Ok(())
}
RT
cd "$program"
python3 "$top/bench/survey.py" files 100 "$work/a.img"
rt fmt
rt run -- "$work/a.img" > "$work/log" 2>&1 || { cat "$work/log"; exit 1; }

# Runs a command three times, with the most memory of each run.
thrice() {
    for _ in 1 2 3; do
        /usr/bin/time -f '%e s in all, %M kB at most' "$@" 2>&1
    done
}

for row in ${*:-files:10000 files:20000 plain:10000 plain:20000 wide:32770 wide:65540 deep:100000 deep:200000 runs:10000 runs:20000 shared:1000 shared:2000}; do
    python3 "$top/bench/survey.py" "${row%:*}" "${row#*:}" "$work/a.img"
    echo "$row"
    thrice out/survey_bench "$work/a.img"
    rm "$work/a.img"
done

if command -v mke2fs > "$work/log" && command -v e2fsck > "$work/log"; then
    for directory in $(seq 200); do
        mkdir -p "$work/tree/dirs$(printf %08d "$directory")"
        (cd "$work/tree/dirs$(printf %08d "$directory")" && seq -f 'file%08.0f' 100 | xargs touch)
    done
    mke2fs -q -t ext4 -N 32768 -d "$work/tree" "$work/ext4.img" 256M > "$work/log" 2>&1
    echo "e2fsck over 20,000 empty files"
    thrice e2fsck -fn "$work/ext4.img" | grep 'in all'
fi
