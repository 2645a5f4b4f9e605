#!/usr/bin/env bash
# Each function of the table ten thousand times over 64 x 64 cells, proved and in plain Rust, in one run. The driver of
# the proved ones is a crate that this script makes in a temporary folder and proves there, which takes some minutes.
# Prints cells a second and the ratio of the times. Needs rustc and python3.
set -eu
cd "$(dirname "$0")/.."
work=$(mktemp -d)
trap 'rm -rf "$work"' EXIT
mkdir -p "$work/crates/bench_functions/src"
cp HANDLES "$work"
cp -r crates/nim_base crates/nim_funcs "$work/crates"
rm -rf "$work"/crates/*/must-fail
printf 'nim_base: itoa\nnim_funcs: nim_base\nbench_functions: nim_base nim_funcs\n' >"$work/crates.txt"
cat >"$work/crates/bench_functions/src/main.rt" <<'END'
//! Runs each function ten thousand times over 64 x 64 cells, and prints its name, its microseconds and a sum of cells.
#![tactic(auto)]

ghost use Rattle.std.specs.Prelude.{◌≤◌, ◌<◌, length, All};
ghost use Rattle.nim_base.specs.Apply.{HasCounts};

use nim_base::{Func, Shape, Value};
use nim_funcs::apply;
use std::alloc::Global;
use std::io;
use std::io::Print;
use std::rt::Clock;
use std::time::Instant;

const TURNS: u32 = 10_000;

fn value_from(alloc: Global, step: i64) -> io::Result<Value> {
    let mut cells = Vec::with_capacity(alloc, 4096)?;
    for row in 0..64i64 {
        for column in 0..64i64 {
            cells.push(row.wrapping_mul(step).wrapping_add(column.wrapping_mul(11)) % 64)?;
        }
    }
    if cells.len() == 4096 {
        Ok(Value::from_cells(64, 64, cells))
    } else {
        Err(io::Error::from(io::ErrorKind::OutOfMemory))
    }
}

fn measure<R: Print + Clock>(
    rt: &R,
    alloc: Global,
    name: &str,
    func: Func,
    params: &[i64],
    values: &[Value],
    reads: &[usize],
    shapes: &[Shape],
) -> io::Result<()>
    requires counts { HasCounts func params.now reads.now shapes.now }
    requires reads { All (λ index. index < length values.now) reads.now }
    requires wide { All (λ shape. 1 ≤ shape.width) shapes.now }
{
    let mut sum: i64 = 0;
    let start = Instant::now(rt)?;
    for turn in 0..TURNS {
        let Ok(written) = apply(alloc, func, params, values, reads, shapes) else {
            return Err(io::Error::from(io::ErrorKind::OutOfMemory));
        };
        for value in written.as_slice() {
            sum = sum.wrapping_add(value.cell(turn % 64, turn % 61));
        }
    }
    let micros = start.elapsed(rt)?.as_micros();
    println!(rt; "{name} {micros} {sum}")
}

fn main(rt: HostRuntime) -> io::Result<()> {
    let alloc = rt.alloc();
    let values = [
        value_from(alloc, 37)?,
        value_from(alloc, 21)?,
        value_from(alloc, 5)?,
    ];
    let whole = Shape { width: 64, rows: 64 };
    let pairs = Shape { width: 2, rows: 64 };
    let single = Shape { width: 1, rows: 1 };
    measure(&rt, alloc, "set", Func::Set, &[7], &values, &[], &[whole])?;
    measure(&rt, alloc, "copy", Func::Copy, &[], &values, &[0], &[whole])?;
    measure(&rt, alloc, "addc", Func::Addc, &[7], &values, &[0], &[whole])?;
    measure(&rt, alloc, "mulc", Func::Mulc, &[7], &values, &[0], &[whole])?;
    measure(&rt, alloc, "add", Func::Add, &[], &values, &[0, 1], &[whole])?;
    measure(&rt, alloc, "sub", Func::Sub, &[], &values, &[0, 1], &[whole])?;
    measure(&rt, alloc, "max", Func::Max, &[], &values, &[0, 1], &[whole])?;
    measure(&rt, alloc, "sum", Func::Sum, &[], &values, &[0, 1, 2], &[whole])?;
    measure(&rt, alloc, "total", Func::Total, &[], &values, &[0, 1, 2], &[single])?;
    measure(&rt, alloc, "count", Func::Count, &[], &values, &[0, 1, 2], &[single])?;
    measure(&rt, alloc, "stencil", Func::Stencil, &[3, 7], &values, &[0, 1, 2], &[whole])?;
    measure(&rt, alloc, "keep", Func::Keep, &[0, 16, 47], &values, &[0], &[whole])?;
    measure(&rt, alloc, "group", Func::Group, &[0, 1], &values, &[0], &[pairs])?;
    measure(&rt, alloc, "merge", Func::Merge, &[], &values, &[0, 1], &[pairs])?;
    measure(&rt, alloc, "split", Func::Split, &[0, 32], &values, &[0], &[whole, whole])
}
END
rustc --edition 2024 -O -o "$work/plain" bench/plain/functions.rs
if ! (cd "$work/crates/bench_functions" && rt run) >"$work/log" 2>&1; then
    cat "$work/log"
    exit 1
fi
python3 bench/ratios.py "$work/crates/bench_functions/out/bench_functions" "$work/plain"
