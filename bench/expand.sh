#!/usr/bin/env bash
# What a task costs that a worker runs from a template: a half of 1,024 tasks, `addc` of one cell each, over 512 objects,
# instantiated so many times at one core, which completes its commands in batches of 16. The driver is a crate that this
# script makes in a temporary folder and proves there, which takes some minutes. Prints nanoseconds a task, three times,
# and instructions and allocations a task. Needs valgrind.
set -eu
cd "$(dirname "$0")/.."
work=$(mktemp -d)
trap 'rm -rf "$work"' EXIT
mkdir -p "$work/crates/bench_expand/src"
cp HANDLES "$work"
for crate in nim_base nim_funcs nim_job nim_command nim_message nim_order nim_store nim_queue nim_plan nim_history nim_worker; do
    cp -r "crates/$crate" "$work/crates"
    rm -rf "$work/crates/$crate/must-fail"
    grep "^$crate:" crates.txt >>"$work/crates.txt"
done
echo 'bench_expand: nim_base nim_command nim_message nim_worker' >>"$work/crates.txt"
cat >"$work/crates/bench_expand/src/main.rt" <<'END'
//! Installs a half of 1,024 tasks at a worker, instantiates it so many times, and prints what a task took.
#![tactic(auto)]

use nim_base::{Func, NoMemory, Param, Seq, Shape, Short, Slot, Worker};
use nim_command::{Command, Entry, EntryKind, Kind};
use nim_message::ToWorker;
use nim_worker::WorkerCore;
use std::alloc::Global;
use std::env;
use std::io;
use std::io::Print;
use std::rt::Clock;
use std::time::Instant;

const TASKS: u32 = 1_024;
const OBJECTS: u16 = 512;

fn refused(_memory: NoMemory) -> io::Error {
    io::Error::from(io::ErrorKind::OutOfMemory)
}

fn reset(alloc: Global) -> Result<ToWorker, NoMemory> {
    let mut shapes = Vec::new(alloc);
    for _ in 0..OBJECTS {
        shapes.push(Shape { width: 1, rows: 1 })?;
    }
    Ok(ToWorker::Reset {
        epoch: 0,
        worker: Worker(0),
        workers: 1,
        shapes: Seq::from_vec(shapes),
    })
}

fn created(alloc: Global) -> Result<ToWorker, NoMemory> {
    let mut commands = Vec::new(alloc);
    for object in 0..OBJECTS {
        commands.push(Command {
            id: u32::from(object),
            kind: Kind::Create {
                slot: Slot(object),
                iota: false,
                number: 3,
            },
            before: Short::new(alloc),
        })?;
    }
    Ok(ToWorker::Single {
        epoch: 0,
        instance: u32::MAX,
        commands: Seq::from_vec(commands),
    })
}

/// The run of a task over the main slot of one object; the task 512 before it uses the same one.
fn entry(alloc: Global, task: u32) -> Result<Entry, NoMemory> {
    let slot = Slot((task % 512) as u16);
    let id = task.saturating_mul(64).saturating_add(32);
    let mut before = Short::new(alloc);
    if task >= 512 {
        before.push(id.saturating_sub(512 * 64))?;
    }
    Ok(Entry {
        id,
        kind: EntryKind::Run {
            func: Func::Addc,
            params: Short::from_slice(alloc, &[Param::Const(1)])?,
            reads: Short::from_slice(alloc, &[slot])?,
            writes: Short::from_slice(alloc, &[slot])?,
        },
        before,
    })
}

fn installed(alloc: Global) -> Result<ToWorker, NoMemory> {
    let mut entries = Vec::new(alloc);
    for task in 0..TASKS {
        entries.push(entry(alloc, task)?)?;
    }
    Ok(ToWorker::InstallTemplate {
        epoch: 0,
        block: 0,
        entries: Seq::from_vec(entries),
    })
}

fn instance(alloc: Global, number: u32) -> ToWorker {
    ToWorker::Instantiate {
        epoch: 0,
        instance: number,
        block: 0,
        base: u64::from(number) * u64::from(TASKS),
        args: Seq::new(alloc),
        versions: Seq::new(alloc),
        edits: Seq::new(alloc),
    }
}

/// Completes all that waits, and tells how much was given.
fn complete(core: &mut WorkerCore) -> Result<usize, NoMemory> {
    let mut given: usize = 0;
    for _ in 0..1_000_000u32 {
        if core.busy() {
            return Ok(given);
        }
        let batch = core.begin(16);
        let is_last = batch.is_empty();
        given = given.saturating_add(core.finish(batch)?.len());
        if is_last {
            return Ok(given);
        }
    }
    Ok(given)
}

fn prepared(alloc: Global) -> Result<WorkerCore, NoMemory> {
    let mut core = WorkerCore::new(alloc, Worker(0));
    core.on_message(reset(alloc)?)?;
    core.on_message(created(alloc)?)?;
    core.on_message(installed(alloc)?)?;
    complete(&mut core)?;
    Ok(core)
}

fn instantiated(core: &mut WorkerCore, alloc: Global, count: u32) -> Result<usize, NoMemory> {
    let mut given: usize = 0;
    for number in 0..count {
        core.on_message(instance(alloc, number))?;
        given = given.saturating_add(complete(core)?);
    }
    Ok(given)
}

fn measure<R: Print + Clock>(rt: &R, alloc: Global, count: u32) -> io::Result<()> {
    let mut core = prepared(alloc).map_err(refused)?;
    let start = Instant::now(rt)?;
    let given = instantiated(&mut core, alloc, count).map_err(refused)?;
    let micros = start.elapsed(rt)?.as_micros();
    println!(rt; "{count} instances in {micros} us, {given} through")
}

fn number_of(word: Option<String>) -> u32 {
    match word {
        Some(text) => match text.as_str().parse::<u32>() {
            Ok(number) => number,
            Err(_) => 1,
        },
        None => 1,
    }
}

/// The argument is how many instances.
fn main(rt: HostRuntime) -> io::Result<()> {
    let alloc = rt.alloc();
    let mut words = env::args(&rt)?;
    let _ = words.next();
    measure(&rt, alloc, number_of(words.next()))
}
END
if ! (cd "$work/crates/bench_expand" && rt run -- 1) >"$work/log" 2>&1; then
    cat "$work/log"
    exit 1
fi
expand="$work/crates/bench_expand/out/bench_expand"
for run in 1 2 3; do
    echo "run $run: $("$expand" 1000)"
done
count() { valgrind --tool="$1" "${@:2}" 2>&1 >/dev/null | sed -n "$pattern"; }
pattern='s/.*Collected : \([0-9]*\).*/\1/p'
few=$(count callgrind --callgrind-out-file=/dev/null "$expand" 1)
many=$(count callgrind --callgrind-out-file=/dev/null "$expand" 21)
echo "instructions a task: $(((many - few) / 20 / 1024))"
pattern='s/.*total heap usage: \([0-9,]*\) allocs.*/\1/p'
few=$(count memcheck "$expand" 1 | tr -d ,)
many=$(count memcheck "$expand" 21 | tr -d ,)
echo "allocations a hundred tasks: $(((many - few) * 100 / 20 / 1024))"
