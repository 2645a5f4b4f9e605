#!/usr/bin/env bash
# What it costs to move one task of a template: `migrate`, for eight tasks with a home each, to the next worker, in a
# template of 16, 128 and 1,024 tasks on 8 workers that is built anew each time. The block is that of
# bench/templates.sh. The driver is a crate that this script makes in a temporary folder and proves there, which takes
# some minutes; the same in plain Rust (bench/plain/templates.rs), which changes the halves of both workers alone, runs
# beside it. Prints nanoseconds a move, three times, with a sum that both have. Needs rustc.
set -eu
cd "$(dirname "$0")/.."
work=$(mktemp -d)
trap 'rm -rf "$work"' EXIT
mkdir -p "$work/crates/bench_edits/src"
cp HANDLES "$work"
for crate in nim_base nim_command nim_message nim_order nim_job nim_plan nim_place nim_template nim_edit; do
    cp -r "crates/$crate" "$work/crates"
    rm -rf "$work/crates/$crate/must-fail"
    grep "^$crate:" crates.txt >>"$work/crates.txt"
done
echo 'bench_edits: nim_base nim_command nim_place nim_template nim_edit' >>"$work/crates.txt"
cat >"$work/crates/bench_edits/src/main.rt" <<'END'
//! Moves tasks of a template that is built anew each time, and prints what a move took.
#![tactic(auto)]

ghost use Rattle.std.specs.Prelude.{◌≡◌, ◌≤◌, length, true};
ghost use Rattle.std.specs.List.{list_all};
ghost use Rattle.nim_edit.specs.Form.{IsInForm};
ghost use Rattle.nim_template.specs.Fits as fits;

use nim_base::{Func, NoMemory, Object, Seq, TaskForm, Worker};
use nim_command::WorkerTemplate;
use nim_edit::{built_is_in_form, migrate};
use nim_place::Placement;
use nim_template::{ControllerTemplate, build_halves};
use std::alloc::Global;
use std::io::Print;
use std::rt::Clock;
use std::time::Instant;
use std::{env, io};

fn refused(_memory: NoMemory) -> io::Error {
    io::Error::from(io::ErrorKind::OutOfMemory)
}

/// The objects from one on, of so many, a power of two.
fn objects_from(
    alloc: Global,
    first: u16,
    count: u16,
    objects: u16,
) -> Result<Seq<Object>, NoMemory> {
    let mut all = Vec::new(alloc);
    for more in 0..count {
        all.push(Object(first.wrapping_add(more) & objects.wrapping_sub(1)))?;
    }
    Ok(Seq::from_vec(all))
}

fn block_of(alloc: Global, tasks: u16, objects: u16) -> Result<ControllerTemplate, NoMemory> {
    let mut forms = Vec::new(alloc);
    for number in 0..tasks {
        forms.push(TaskForm {
            func: Func::Sum,
            params: Seq::new(alloc),
            reads: objects_from(alloc, number.wrapping_sub(1), 3, objects)?,
            writes: objects_from(alloc, number, 1, objects)?,
        })?;
    }
    Ok(ControllerTemplate {
        block: 0,
        forms: Seq::from_vec(forms),
    })
}

fn are_below(all: &[Object], objects: u16) -> bool
    ensures { result ≡ fits.are_below objects all.now }
{
    all.iter().all(|object| object.0 < objects)
}

fn is_fit(form: &TaskForm, objects: u16) -> bool
    ensures { result ≡ fits.is_fit objects form.now }
{
    1 <= form.writes.len()
        && form.writes.len() <= 2
        && form.reads.len() <= 8
        && are_below(form.writes.as_slice(), objects)
        && are_below(form.reads.as_slice(), objects)
}

fn are_fit(forms: &[TaskForm], objects: u16) -> bool
    ensures { result ≡ list_all (fits.is_fit objects) forms.now }
{
    forms.iter().all(|form| is_fit(form, objects))
}

/// A task moves from its home to the next worker.
fn move_one(template: &mut WorkerTemplate, task: u16, live: &[bool]) -> usize
    requires { IsInForm template.old }
    ensures { IsInForm template.new }
{
    if live.len() != template.built.len() {
        return 0;
    }
    let to = match template.homes.as_slice().get(usize::from(task)) {
        Some(home) => Worker(home.0.wrapping_add(1) % 8),
        None => Worker(0),
    };
    match migrate(template, task, to, live) {
        Ok(()) => 1,
        Err(_) => 0,
    }
}

/// Eight tasks move, of a home each.
fn move_eight(template: &mut WorkerTemplate, live: &[bool]) -> usize
    requires { IsInForm template.old }
{
    let mut moved = move_one(template, 0, live);
    moved = moved.wrapping_add(move_one(template, 1, live));
    moved = moved.wrapping_add(move_one(template, 2, live));
    moved = moved.wrapping_add(move_one(template, 3, live));
    moved = moved.wrapping_add(move_one(template, 4, live));
    moved = moved.wrapping_add(move_one(template, 5, live));
    moved = moved.wrapping_add(move_one(template, 6, live));
    moved.wrapping_add(move_one(template, 7, live))
}

/// How many entries the halves have, and places the effect.
fn size_of(template: &WorkerTemplate) -> usize {
    let mut size = template.effect.len();
    for half in template.halves.as_slice() {
        size = size.wrapping_add(half.entries().len());
    }
    size
}

/// The nanoseconds of eight moves, how many came through, and the size of the template then.
fn moved<R: Clock>(
    rt: &R,
    alloc: Global,
    block: &ControllerTemplate,
    objects: u16,
) -> io::Result<(u128, usize, usize)>
    requires objects { objects ≤ 512 }
    requires many { length block.now.forms ≤ 1024 }
    requires fit { list_all (fits.is_fit objects) block.now.forms ≡ true }
{
    let live = [true, true, true, true, true, true, true, true];
    let place = Placement::Cyclic;
    let mut template = build_halves(alloc, block, &place, objects, &live).map_err(refused)?;
    built_is_in_form(&template, block, &place, objects, &live);
    let start = Instant::now(rt)?;
    let count = move_eight(&mut template, &live);
    let nanos = start.elapsed(rt)?.as_nanos();
    Ok((nanos, count, size_of(&template)))
}

fn measure<R: Print + Clock>(
    rt: &R,
    alloc: Global,
    block: &ControllerTemplate,
    objects: u16,
    turns: u64,
) -> io::Result<()>
    requires objects { objects ≤ 512 }
    requires many { length block.now.forms ≤ 1024 }
    requires fit { list_all (fits.is_fit objects) block.now.forms ≡ true }
{
    let mut nanos: u128 = 0;
    let mut moves: usize = 0;
    let mut size: usize = 0;
    for _ in 0..turns {
        let (more, count, entries) = moved(rt, alloc, block, objects)?;
        nanos = nanos.wrapping_add(more);
        moves = moves.wrapping_add(count);
        size = size.wrapping_add(entries);
    }
    let one = match nanos.checked_div(moves as u128) {
        Some(one) => one,
        None => 0,
    };
    println!(rt; "{one} ns a move, {size}")
}

fn number_of(word: Option<String>) -> u64 {
    match word {
        Some(text) => match text.as_str().parse::<u64>() {
            Ok(number) => number,
            Err(_) => 16,
        },
        None => 16,
    }
}

/// The arguments are how many tasks, a power of two up to 1,024, and how often.
fn main(rt: HostRuntime) -> io::Result<()> {
    let alloc = rt.alloc();
    let mut words = env::args(&rt)?;
    let _ = words.next();
    let tasks = number_of(words.next()).min(1024) as u16;
    let turns = number_of(words.next());
    let objects = tasks.min(512);
    let block = block_of(alloc, tasks, objects).map_err(refused)?;
    let fit = are_fit(block.forms.as_slice(), objects);
    if fit && block.forms.len() <= 1024 {
        measure(&rt, alloc, &block, objects, turns)
    } else {
        Ok(())
    }
}
END
rustc --edition 2024 -O -o "$work/plain" bench/plain/templates.rs
if ! (cd "$work/crates/bench_edits" && rt run -- 16 1) >"$work/log" 2>&1; then
    cat "$work/log"
    exit 1
fi
nimbus="$work/crates/bench_edits/out/bench_edits"
for run in 1 2 3; do
    for tasks in 16 128 1024; do
        echo "run $run, $tasks tasks, nimbus: $("$nimbus" "$tasks" $((51200 / tasks)))"
        echo "run $run, $tasks tasks, plain:  $("$work/plain" migrate "$tasks" $((51200 / tasks)))"
    done
done
