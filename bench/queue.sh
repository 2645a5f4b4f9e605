#!/usr/bin/env bash
# What a command costs that goes through the queue of waiting commands while 16 to 65,536 wait at once: a chain, where
# each waits for the one before, and commands that wait for none. The driver is a crate that this script makes in a
# temporary folder and proves there, which takes some minutes; a queue in plain Rust runs beside it. Prints the time of so
# many commands and the peak memory of each, three times. Needs rustc and GNU time.
set -eu
cd "$(dirname "$0")/.."
work=$(mktemp -d)
trap 'rm -rf "$work"' EXIT
mkdir -p "$work/crates/bench_queue/src"
cp HANDLES "$work"
cp -r crates/nim_base crates/nim_command crates/nim_message crates/nim_order crates/nim_queue "$work/crates"
rm -rf "$work"/crates/*/must-fail
grep -E '^nim_(base|command|message|order|queue):' crates.txt >"$work/crates.txt"
echo 'bench_queue: nim_base nim_command nim_queue' >>"$work/crates.txt"
cat >"$work/crates/bench_queue/src/main.rt" <<'END'
//! Runs commands through the queue while so many wait, and prints what one of them took.
#![tactic(auto)]

use nim_base::{Short, Slot};
use nim_command::{Command, Kind};
use nim_queue::BeforeQueue;
use std::alloc::Global;
use std::env;
use std::io;
use std::io::Print;
use std::rt::Clock;
use std::time::Instant;

fn no_memory() -> io::Error {
    io::Error::from(io::ErrorKind::OutOfMemory)
}

fn admit(queue: &mut BeforeQueue, alloc: Global, number: u64, slots: u64) -> io::Result<()> {
    let mut group = Vec::new(alloc);
    let slot = if slots == 0 { 0 } else { number % slots };
    group.push(Command {
        id: 0,
        kind: Kind::Create {
            slot: Slot((slot % 65_536) as u16),
            iota: false,
            number: 3,
        },
        before: Short::new(alloc),
    })?;
    match queue.admit(group) {
        Ok(()) => Ok(()),
        Err(_) => Err(no_memory()),
    }
}

fn turn(queue: &mut BeforeQueue, alloc: Global, number: u64, slots: u64) -> io::Result<()> {
    if let Some(ticket) = queue.ready(None) {
        queue.complete(ticket);
    }
    admit(queue, alloc, number, slots)
}

fn measure<R: Print + Clock>(
    rt: &R,
    alloc: Global,
    waiting: u64,
    slots: u64,
    turns: u64,
) -> io::Result<()> {
    let mut queue = BeforeQueue::new(alloc);
    for number in 0..waiting {
        admit(&mut queue, alloc, number, slots)?;
    }
    let start = Instant::now(rt)?;
    for number in 0..turns {
        turn(&mut queue, alloc, waiting.wrapping_add(number), slots)?;
    }
    let micros = start.elapsed(rt)?.as_micros();
    println!(rt; "{waiting} wait, {turns} in {micros} us")
}

fn number_of(word: Option<String>) -> u64 {
    match word {
        Some(text) => match text.as_str().parse::<u64>() {
            Ok(number) => number,
            Err(_) => 16,
        },
        None => 16,
    }
}

/// The arguments are how many wait, how many slots they write, and how many go through.
fn main(rt: HostRuntime) -> io::Result<()> {
    let alloc = rt.alloc();
    let mut words = env::args(&rt)?;
    let _ = words.next();
    let waiting = number_of(words.next());
    let slots = number_of(words.next());
    let turns = number_of(words.next());
    measure(&rt, alloc, waiting, slots, turns)
}
END
rustc --edition 2024 -O -o "$work/plain" bench/plain/queue.rs
if ! (cd "$work/crates/bench_queue" && rt run -- 16 16 16) >"$work/log" 2>&1; then
    cat "$work/log"
    exit 1
fi
nimbus="$work/crates/bench_queue/out/bench_queue"
peak() { /usr/bin/time -f "%M KiB" "$@" 2>&1 >/dev/null; }
for run in 1 2 3; do
    for waiting in 16 256 4096 65536; do
        for slots in 1 "$waiting"; do
            name="run $run, $([ "$slots" = 1 ] && echo chain || echo independent)"
            echo "$name, nimbus: $("$nimbus" "$waiting" "$slots" 20000), $(peak "$nimbus" "$waiting" "$slots" 1)"
            echo "$name, plain:  $("$work/plain" "$waiting" "$slots" 20000), $(peak "$work/plain" "$waiting" "$slots" 1)"
        done
    done
done
