#!/usr/bin/env bash
# What a task costs at a worker's core that comes alone in a Single: `addc` of one cell, over 64 objects, four tasks of an
# object waiting at once, each begun and finished in a batch of one, as the default rule does it. The driver is a crate
# that this script makes in a temporary folder and proves there, which takes some minutes. Prints nanoseconds a task,
# three times, and instructions and allocations a task. Needs valgrind.
set -eu
cd "$(dirname "$0")/.."
work=$(mktemp -d)
trap 'rm -rf "$work"' EXIT
mkdir -p "$work/crates/bench_single/src"
cp HANDLES "$work"
for crate in nim_base nim_funcs nim_job nim_command nim_message nim_order nim_store nim_queue nim_plan nim_history nim_worker; do
    cp -r "crates/$crate" "$work/crates"
    rm -rf "$work/crates/$crate/must-fail"
    grep "^$crate:" crates.txt >>"$work/crates.txt"
done
echo 'bench_single: nim_base nim_command nim_message nim_worker' >>"$work/crates.txt"
cat >"$work/crates/bench_single/src/main.rt" <<'END'
//! Gives a worker one task after another, each in a Single, and prints what a task took.
#![tactic(auto)]

use nim_base::{Func, NoMemory, Seq, Shape, Short, Slot, Worker};
use nim_command::{Command, Kind};
use nim_message::ToWorker;
use nim_worker::WorkerCore;
use std::alloc::Global;
use std::env;
use std::io;
use std::io::Print;
use std::rt::Clock;
use std::time::Instant;

const OBJECTS: u64 = 64;
const WAITING: u64 = 256;

fn refused(_memory: NoMemory) -> io::Error {
    io::Error::from(io::ErrorKind::OutOfMemory)
}

fn reset(alloc: Global) -> Result<ToWorker, NoMemory> {
    let mut shapes = Vec::new(alloc);
    for _ in 0..OBJECTS {
        shapes.push(Shape { width: 1, rows: 1 })?;
    }
    Ok(ToWorker::Reset {
        epoch: 0,
        worker: Worker(0),
        workers: 1,
        shapes: Seq::from_vec(shapes),
    })
}

fn alone(alloc: Global, kind: Kind) -> Result<ToWorker, NoMemory> {
    let mut commands = Vec::new(alloc);
    commands.push(Command {
        id: 32,
        kind,
        before: Short::new(alloc),
    })?;
    Ok(ToWorker::Single {
        epoch: 0,
        instance: 0,
        commands: Seq::from_vec(commands),
    })
}

fn slot_of(number: u64) -> Slot {
    Slot((number % OBJECTS) as u16)
}

fn created(alloc: Global, number: u64) -> Result<ToWorker, NoMemory> {
    alone(
        alloc,
        Kind::Create {
            slot: slot_of(number),
            iota: false,
            number: 3,
        },
    )
}

fn task(alloc: Global, number: u64) -> Result<ToWorker, NoMemory> {
    let slot = slot_of(number);
    alone(
        alloc,
        Kind::Run {
            position: number,
            func: Func::Addc,
            params: Short::from_slice(alloc, &[1])?,
            reads: Short::from_slice(alloc, &[slot])?,
            writes: Short::from_slice(alloc, &[slot])?,
        },
    )
}

/// Completes the next command, and tells how much was given.
fn complete(core: &mut WorkerCore) -> Result<usize, NoMemory> {
    if core.busy() {
        return Ok(0);
    }
    let batch = core.begin(1);
    Ok(core.finish(batch)?.len())
}

fn prepared(alloc: Global) -> Result<WorkerCore, NoMemory> {
    let mut core = WorkerCore::new(alloc, Worker(0));
    core.on_message(reset(alloc)?)?;
    for number in 0..OBJECTS {
        core.on_message(created(alloc, number)?)?;
        complete(&mut core)?;
    }
    for number in 0..WAITING {
        core.on_message(task(alloc, number)?)?;
    }
    Ok(core)
}

fn given(core: &mut WorkerCore, alloc: Global, tasks: u64) -> Result<usize, NoMemory> {
    let mut given: usize = 0;
    for number in 0..tasks {
        given = given.saturating_add(complete(core)?);
        core.on_message(task(alloc, WAITING.saturating_add(number))?)?;
    }
    Ok(given)
}

fn measure<R: Print + Clock>(rt: &R, alloc: Global, tasks: u64) -> io::Result<()> {
    let mut core = prepared(alloc).map_err(refused)?;
    let start = Instant::now(rt)?;
    let told = given(&mut core, alloc, tasks).map_err(refused)?;
    let micros = start.elapsed(rt)?.as_micros();
    println!(rt; "{tasks} tasks in {micros} us, {told} reports")
}

fn number_of(word: Option<String>) -> u64 {
    match word {
        Some(text) => match text.as_str().parse::<u64>() {
            Ok(number) => number,
            Err(_) => 1,
        },
        None => 1,
    }
}

/// The argument is how many tasks.
fn main(rt: HostRuntime) -> io::Result<()> {
    let alloc = rt.alloc();
    let mut words = env::args(&rt)?;
    let _ = words.next();
    measure(&rt, alloc, number_of(words.next()))
}
END
if ! (cd "$work/crates/bench_single" && rt run -- 1) >"$work/log" 2>&1; then
    cat "$work/log"
    exit 1
fi
single="$work/crates/bench_single/out/bench_single"
for run in 1 2 3; do
    echo "run $run: $("$single" 64000)"
done
count() { valgrind --tool="$1" "${@:2}" 2>&1 >/dev/null | sed -n "$pattern"; }
pattern='s/.*Collected : \([0-9]*\).*/\1/p'
few=$(count callgrind --callgrind-out-file=/dev/null "$single" 1000)
many=$(count callgrind --callgrind-out-file=/dev/null "$single" 21000)
echo "instructions a task: $(((many - few) / 20000))"
pattern='s/.*total heap usage: \([0-9,]*\) allocs.*/\1/p'
few=$(count memcheck "$single" 1000 | tr -d ,)
many=$(count memcheck "$single" 21000 | tr -d ,)
echo "allocations a hundred tasks: $(((many - few) / 200))"
