#!/usr/bin/env bash
# What a task of a block costs to schedule, and what it costs to build into a template: `schedule_task` for each task of
# a block, and `build_halves` for the block, with 16, 128 and 1,024 tasks on 8 workers. Each task reads the object that
# it writes and both neighbours of it, which lie at other workers; there are as many objects as tasks, and at most 512.
# The driver is a crate that this script makes in a temporary folder and proves there, which takes some minutes; the
# same in plain Rust (bench/plain/templates.rs) runs beside it. Prints nanoseconds a task, three times, with a sum that
# both have, and instructions a task. Needs rustc and valgrind.
set -eu
cd "$(dirname "$0")/.."
work=$(mktemp -d)
trap 'rm -rf "$work"' EXIT
mkdir -p "$work/crates/bench_templates/src"
cp HANDLES "$work"
for crate in nim_base nim_command nim_message nim_order nim_job nim_plan nim_place nim_template; do
    cp -r "crates/$crate" "$work/crates"
    rm -rf "$work/crates/$crate/must-fail"
    grep "^$crate:" crates.txt >>"$work/crates.txt"
done
echo 'bench_templates: nim_base nim_command nim_place nim_template' >>"$work/crates.txt"
cat >"$work/crates/bench_templates/src/main.rt" <<'END'
//! Schedules the tasks of a block and builds its template, so many times, and prints what a task took.
#![tactic(auto)]

ghost use Rattle.std.specs.Prelude.{◌≡◌, ◌≤◌, ◌<◌, length, slice_get, true, IsSomeAnd, IsTrue};
ghost use Rattle.std.specs.List.{list_all};
ghost use Rattle.nim_template.specs.Fits as fits;

use nim_base::{Func, NoMemory, Object, Seq, Short, Slot, Task, TaskForm, Worker};
use nim_command::{Command, Kind};
use nim_place::{Placement, VersionMap, schedule_task};
use nim_template::{ControllerTemplate, build_halves};
use std::alloc::Global;
use std::io::Print;
use std::rt::Clock;
use std::time::Instant;
use std::{env, io};

fn refused(_memory: NoMemory) -> io::Error {
    io::Error::from(io::ErrorKind::OutOfMemory)
}

/// The objects from one on, of so many, a power of two.
fn objects_from(
    alloc: Global,
    first: u16,
    count: u16,
    objects: u16,
) -> Result<Seq<Object>, NoMemory> {
    let mut all = Vec::new(alloc);
    for more in 0..count {
        all.push(Object(first.wrapping_add(more) & objects.wrapping_sub(1)))?;
    }
    Ok(Seq::from_vec(all))
}

fn block_of(alloc: Global, tasks: u16, objects: u16) -> Result<ControllerTemplate, NoMemory> {
    let mut forms = Vec::new(alloc);
    for number in 0..tasks {
        forms.push(TaskForm {
            func: Func::Sum,
            params: Seq::new(alloc),
            reads: objects_from(alloc, number.wrapping_sub(1), 3, objects)?,
            writes: objects_from(alloc, number, 1, objects)?,
        })?;
    }
    Ok(ControllerTemplate {
        block: 0,
        forms: Seq::from_vec(forms),
    })
}

fn tasks_of(alloc: Global, tasks: u16, objects: u16) -> Result<Vec<Task>, NoMemory> {
    let mut all = Vec::new(alloc);
    for number in 0..tasks {
        all.push(Task {
            func: Func::Sum,
            params: Seq::new(alloc),
            reads: objects_from(alloc, number.wrapping_sub(1), 3, objects)?,
            writes: objects_from(alloc, number, 1, objects)?,
        })?;
    }
    Ok(all)
}

/// Each object is created at its home.
fn create_all(alloc: Global, map: &mut VersionMap, objects: u16) {
    for number in 0..objects {
        let kind = Kind::Create {
            slot: Slot(number),
            iota: false,
            number: 0,
        };
        let command = Command {
            id: 0,
            kind,
            before: Short::new(alloc),
        };
        map.apply_command(Worker(number % 8), &command);
    }
}

fn writes_below(task: &Task, objects: u16) -> bool
    ensures { IsTrue result → IsSomeAnd (slice_get task.now.writes 0) (λ object. object.0 < objects) }
{
    match task.writes.as_slice().first() {
        Some(object) => object.0 < objects,
        None => false,
    }
}

fn schedule(
    alloc: Global,
    map: &mut VersionMap,
    task: &Task,
    number: u16,
    position: u64,
) -> Result<usize, NoMemory> {
    if map.workers() != 8 || !writes_below(task, map.objects()) {
        return Ok(0);
    }
    let live = [true, true, true, true, true, true, true, true];
    let place = Placement::Cyclic;
    let given = schedule_task(alloc, map, task, number, position, &place, &live)?;
    Ok(given.len())
}

fn schedule_all(
    alloc: Global,
    map: &mut VersionMap,
    tasks: &[Task],
    base: u64,
) -> Result<usize, NoMemory> {
    let mut given: usize = 0;
    for (number, task) in tasks.iter().enumerate() {
        let position = base.wrapping_add(number as u64);
        let number = match u16::try_from(number) {
            Ok(number) => number,
            Err(_) => u16::MAX,
        };
        given = given.wrapping_add(schedule(alloc, map, task, number, position)?);
    }
    Ok(given)
}

fn schedule_often(
    alloc: Global,
    map: &mut VersionMap,
    tasks: &[Task],
    turns: u64,
) -> Result<usize, NoMemory> {
    let mut given: usize = 0;
    for turn in 0..turns {
        given = given.wrapping_add(schedule_all(
            alloc,
            map,
            tasks,
            turn.wrapping_mul(tasks.len() as u64),
        )?);
    }
    Ok(given)
}

fn are_below(all: &[Object], objects: u16) -> bool
    ensures { result ≡ fits.are_below objects all.now }
{
    all.iter().all(|object| object.0 < objects)
}

fn is_fit(form: &TaskForm, objects: u16) -> bool
    ensures { result ≡ fits.is_fit objects form.now }
{
    1 <= form.writes.len()
        && form.writes.len() <= 2
        && form.reads.len() <= 8
        && are_below(form.writes.as_slice(), objects)
        && are_below(form.reads.as_slice(), objects)
}

fn are_fit(forms: &[TaskForm], objects: u16) -> bool
    ensures { result ≡ list_all (fits.is_fit objects) forms.now }
{
    forms.iter().all(|form| is_fit(form, objects))
}

/// How many preconditions the templates have.
fn build_often(
    alloc: Global,
    block: &ControllerTemplate,
    objects: u16,
    turns: u64,
) -> Result<usize, NoMemory>
    requires objects { objects ≤ 512 }
    requires many { length block.now.forms ≤ 1024 }
    requires fit { list_all (fits.is_fit objects) block.now.forms ≡ true }
{
    let live = [true, true, true, true, true, true, true, true];
    let mut needs: usize = 0;
    for _ in 0..turns {
        let built = build_halves(alloc, block, &Placement::Cyclic, objects, &live)?;
        needs = needs.wrapping_add(built.preconditions.len());
    }
    Ok(needs)
}

fn build(
    alloc: Global,
    block: &ControllerTemplate,
    objects: u16,
    turns: u64,
) -> Result<usize, NoMemory> {
    let fit = are_fit(block.forms.as_slice(), objects);
    if objects <= 512 && block.forms.len() <= 1024 && fit {
        build_often(alloc, block, objects, turns)
    } else {
        Ok(0)
    }
}

fn nanos(nanos: u128, turns: u64, tasks: u16) -> u128 {
    let count = u128::from(turns).wrapping_mul(u128::from(tasks));
    match nanos.checked_div(count) {
        Some(one) => one,
        None => 0,
    }
}

fn measure_scheduling<R: Print + Clock>(
    rt: &R,
    alloc: Global,
    tasks: u16,
    turns: u64,
) -> io::Result<()> {
    let objects = tasks.min(512);
    let all = tasks_of(alloc, tasks, objects).map_err(refused)?;
    let mut map = VersionMap::new(alloc, 8, objects).map_err(refused)?;
    create_all(alloc, &mut map, objects);
    let start = Instant::now(rt)?;
    let given = schedule_often(alloc, &mut map, all.as_slice(), turns).map_err(refused)?;
    let one = nanos(start.elapsed(rt)?.as_nanos(), turns, tasks);
    println!(rt; "{one} ns a task, {given}")
}

fn measure_building<R: Print + Clock>(
    rt: &R,
    alloc: Global,
    tasks: u16,
    turns: u64,
) -> io::Result<()> {
    let objects = tasks.min(512);
    let block = block_of(alloc, tasks, objects).map_err(refused)?;
    let start = Instant::now(rt)?;
    let needs = build(alloc, &block, objects, turns).map_err(refused)?;
    let one = nanos(start.elapsed(rt)?.as_nanos(), turns, tasks);
    println!(rt; "{one} ns a task, {needs}")
}

fn number_of(word: Option<String>) -> u64 {
    match word {
        Some(text) => match text.as_str().parse::<u64>() {
            Ok(number) => number,
            Err(_) => 16,
        },
        None => 16,
    }
}

/// The arguments are what to measure, how many tasks, a power of two up to 1,024, and how often.
fn main(rt: HostRuntime) -> io::Result<()> {
    let alloc = rt.alloc();
    let mut words = env::args(&rt)?;
    let _ = words.next();
    let builds = match words.next() {
        Some(word) => word.as_str() == "build",
        None => false,
    };
    let tasks = number_of(words.next()).min(1024) as u16;
    let turns = number_of(words.next());
    if builds {
        measure_building(&rt, alloc, tasks, turns)
    } else {
        measure_scheduling(&rt, alloc, tasks, turns)
    }
}
END
rustc --edition 2024 -O -o "$work/plain" bench/plain/templates.rs
if ! (cd "$work/crates/bench_templates" && rt run -- build 16 1) >"$work/log" 2>&1; then
    cat "$work/log"
    exit 1
fi
nimbus="$work/crates/bench_templates/out/bench_templates"
for run in 1 2 3; do
    for tasks in 16 128 1024; do
        for what in schedule build; do
            echo "run $run, $what, $tasks tasks, nimbus: $("$nimbus" "$what" "$tasks" $((102400 / tasks)))"
            echo "run $run, $what, $tasks tasks, plain:  $("$work/plain" "$what" "$tasks" $((102400 / tasks)))"
        done
    done
done
count() {
    valgrind --tool=callgrind --callgrind-out-file=/dev/null "$@" 2>&1 >/dev/null \
        | sed -n 's/.*Collected : \([0-9]*\).*/\1/p'
}
for tasks in 16 128 1024; do
    for what in schedule build; do
        for program in "$nimbus" "$work/plain"; do
            few=$(count "$program" "$what" "$tasks" 2)
            many=$(count "$program" "$what" "$tasks" 12)
            echo "$what, $tasks tasks, $(basename "$program"): $(((many - few) / 10 / tasks)) instructions a task"
        done
    done
done
