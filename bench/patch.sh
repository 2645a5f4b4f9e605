#!/usr/bin/env bash
# What a precondition of a template costs: `failing` over 16, 128, 1,024 and 4,096 of them (8 workers, 512 objects), and
# `build_patch` over those that it flagged, where all hold, and where all but one worker's fail. The driver is a crate
# that this script makes in a temporary folder and proves there, which takes some minutes; the same in plain Rust
# (bench/plain/patch.rs) runs beside it. Prints picoseconds a precondition of each, three times. Needs rustc.
set -eu
cd "$(dirname "$0")/.."
work=$(mktemp -d)
trap 'rm -rf "$work"' EXIT
mkdir -p "$work/crates/bench_patch/src"
cp HANDLES "$work"
for crate in nim_base nim_command nim_message nim_order nim_job nim_plan nim_place nim_template nim_patch; do
    cp -r "crates/$crate" "$work/crates"
    rm -rf "$work/crates/$crate/must-fail"
    grep "^$crate:" crates.txt >>"$work/crates.txt"
done
echo 'bench_patch: nim_base nim_command nim_place nim_patch' >>"$work/crates.txt"
cat >"$work/crates/bench_patch/src/main.rt" <<'END'
//! Flags preconditions of a template and builds its patch, so often, and prints picoseconds a precondition.
#![tactic(auto)]

use nim_base::{NoMemory, Object, Seq, Short, Slot, Worker};
use nim_command::{Command, Kind, WorkerTemplate};
use nim_patch::{build_patch, failing};
use nim_place::VersionMap;
use std::alloc::Global;
use std::io::Print;
use std::rt::Clock;
use std::time::Instant;
use std::{env, io};

const WORKERS: u16 = 8;

const OBJECTS: u16 = 512;

fn refused(_memory: NoMemory) -> io::Error {
    io::Error::from(io::ErrorKind::OutOfMemory)
}

fn template_of(alloc: Global, count: u16) -> Result<WorkerTemplate, NoMemory> {
    let mut slots = Vec::new(alloc);
    for at in 0..count {
        slots.push((Worker(at % 8), Object(at / 8)))?;
    }
    Ok(WorkerTemplate {
        block: 0,
        forms: Seq::new(alloc),
        halves: Seq::new(alloc),
        built: Seq::new(alloc),
        preconditions: Seq::from_vec(slots),
        effect: Seq::new(alloc),
        homes: Seq::new(alloc),
        owners: Seq::new(alloc),
        unsent: Seq::new(alloc),
    })
}

fn fill(alloc: Global, map: &mut VersionMap, worker: u16, version: u64) {
    for object in 0..OBJECTS {
        let kind = Kind::Receive {
            slot: Slot(object),
            version,
        };
        let command = Command {
            id: 0,
            kind,
            before: Short::new(alloc),
        };
        map.apply_command(Worker(worker), &command);
    }
}

fn flag_often(
    template: &WorkerTemplate,
    map: &VersionMap,
    flags: &mut Vec<bool>,
    turns: u64,
) -> usize {
    let mut failed: usize = 0;
    for _ in 0..turns {
        if flags.len() == template.preconditions.len() {
            failed = failed.wrapping_add(failing(template, map, flags.as_mut_slice()));
        }
    }
    failed
}

/// Flags and mends, so often.
fn mend_often(
    alloc: Global,
    template: &WorkerTemplate,
    map: &VersionMap,
    turns: u64,
) -> Result<usize, NoMemory> {
    let mut flags = vec![in alloc; false; template.preconditions.len()]?;
    failing(template, map, flags.as_mut_slice());
    let mut copies: usize = 0;
    for _ in 0..turns {
        let patch = build_patch(alloc, template, map, flags.as_slice())?;
        copies = copies.wrapping_add(patch.copies.len());
    }
    Ok(copies)
}

fn picos(nanos: u128, turns: u64, count: usize) -> u128 {
    let all = u128::from(turns).wrapping_mul(count as u128);
    match nanos.wrapping_mul(1000).checked_div(all) {
        Some(one) => one,
        None => 0,
    }
}

fn measure<R: Print + Clock>(
    rt: &R,
    alloc: Global,
    name: &str,
    template: &WorkerTemplate,
    map: &VersionMap,
    turns: u64,
) -> io::Result<()> {
    let count = template.preconditions.len();
    let mut flags = vec![in alloc; false; count]?;
    let start = Instant::now(rt)?;
    let failed = flag_often(template, map, &mut flags, turns);
    let flagging = picos(start.elapsed(rt)?.as_nanos(), turns, count);
    let start = Instant::now(rt)?;
    let copies = mend_often(alloc, template, map, turns).map_err(refused)?;
    let mending = picos(start.elapsed(rt)?.as_nanos(), turns, count);
    println!(rt;
        "{count} of {name}: {flagging} ps to flag one, {mending} ps to mend one, {failed} failed, {copies} copies"
    )
}

fn number_of(word: Option<String>) -> u64 {
    match word {
        Some(text) => match text.as_str().parse::<u64>() {
            Ok(number) => number,
            Err(_) => 16,
        },
        None => 16,
    }
}

/// The arguments are how many preconditions, and how often.
fn main(rt: HostRuntime) -> io::Result<()> {
    let alloc = rt.alloc();
    let mut words = env::args(&rt)?;
    let _ = words.next();
    let count = number_of(words.next()).min(4096) as u16;
    let turns = number_of(words.next());
    let template = template_of(alloc, count).map_err(refused)?;
    let mut map = VersionMap::new(alloc, WORKERS, OBJECTS).map_err(refused)?;
    for worker in 0..WORKERS {
        fill(alloc, &mut map, worker, 1);
    }
    measure(&rt, alloc, "which all hold", &template, &map, turns)?;
    fill(alloc, &mut map, 0, 2);
    measure(&rt, alloc, "which most fail", &template, &map, turns)
}
END
rustc --edition 2024 -O -o "$work/plain" bench/plain/patch.rs
if ! (cd "$work/crates/bench_patch" && rt run -- 16 1) >"$work/log" 2>&1; then
    cat "$work/log"
    exit 1
fi
nimbus="$work/crates/bench_patch/out/bench_patch"
for run in 1 2 3; do
    for count in 16 128 1024 4096; do
        echo "run $run, nimbus:"
        "$nimbus" "$count" $((40960000 / count))
        echo "run $run, plain:"
        "$work/plain" "$count" $((40960000 / count))
    done
done
