#!/usr/bin/env bash
# The greatest driver and the greatest data file that are read (1,048,576 and 33,554,432 bytes), to a whole job, proved and
# in plain Rust, in one run; and the driver's tokens and tree alone. The driver of the proved calls is a crate that this
# script makes in a temporary folder and proves there, which takes some minutes. Prints seconds and peak memory of each,
# five times. Needs rustc, python3 and GNU time.
set -eu
cd "$(dirname "$0")/.."
work=$(mktemp -d)
trap 'rm -rf "$work"' EXIT
mkdir -p "$work/crates/bench_text/src"
cp HANDLES "$work"
for crate in nim_base nim_io nim_lex nim_data nim_parse nim_job nim_check; do
    cp -r "crates/$crate" "$work/crates"
    rm -rf "$work/crates/$crate/must-fail"
    grep "^$crate:" crates.txt >>"$work/crates.txt"
done
printf 'bench_text: nim_base nim_io nim_lex nim_parse nim_job nim_check\n' >>"$work/crates.txt"
cat >"$work/crates/bench_text/src/main.rt" <<'END'
//! `DRIVER DATA` reads both into a job, and prints how many statements stand outermost and a sum of all loaded cells;
//! `DRIVER` alone reads its tokens and its tree, and prints how many lines of statements it has.
#![tactic(auto)]

use nim_check::{load, read_driver};
use nim_io::{HostFiles, read_all};
use nim_job::Init;
use nim_lex::tokens;
use nim_parse::parse;
use std::alloc::Global;
use std::io::Print;
use std::rt::{Env, Files};
use std::{env, io};

const MOST: usize = 40_000_000;

fn failed<T>() -> io::Result<T> {
    Err(io::Error::from(io::ErrorKind::InvalidData))
}

fn tree<R: Print + Alloc<A = Global>>(rt: &R, bytes: &[u8]) -> io::Result<()> {
    let Ok(found) = tokens(rt.alloc(), bytes) else {
        return failed();
    };
    let Ok(tree) = parse(rt.alloc(), bytes, &found) else {
        return failed();
    };
    let lines = tree.sections().statements.len();
    println!(rt; "{lines}")
}

fn job<R: Print + Alloc<A = Global>>(rt: &R, driver: &[u8], data: &[u8]) -> io::Result<()> {
    let Ok(mut job) = read_driver(rt.alloc(), driver) else {
        return failed();
    };
    if load(rt.alloc(), &mut job, data).is_err() {
        return failed();
    }
    let mut sum: i64 = 0;
    for var in job.vars.as_slice() {
        if let Init::Loaded(values) = &var.init {
            for value in values.as_slice() {
                for cell in value.cells() {
                    sum = sum.wrapping_add(*cell);
                }
            }
        }
    }
    let statements = job.body.len();
    println!(rt; "{statements} {sum}")
}

fn run<R: Print + Env + Alloc<A = Global>, F: Files>(rt: &R, files: &mut HostFiles<F>) -> io::Result<()> {
    let words: Vec<String> = env::args(rt)?.skip(1).collect(rt.alloc())?;
    let Some(name) = words.first() else {
        return failed();
    };
    let Ok(driver) = read_all(rt.alloc(), files, name.as_str(), MOST) else {
        return failed();
    };
    let Some(name) = words.get(1) else {
        return tree(rt, &driver);
    };
    match read_all(rt.alloc(), files, name.as_str(), MOST) {
        Ok(data) => job(rt, &driver, &data),
        Err(_) => failed(),
    }
}

fn main(rt: HostRuntime) -> io::Result<()> {
    run(&rt, &mut HostFiles::new(rt))
}
END
rustc --edition 2024 -O -o "$work/plain" bench/plain/text.rs
python3 bench/texts.py "$work"
if ! (cd "$work/crates/bench_text" && rt run -- "$work/most.nb" "$work/most.data") >"$work/log" 2>&1; then
    cat "$work/log"
    exit 1
fi
proved=$work/crates/bench_text/out/bench_text
"$proved" "$work/most.nb" "$work/most.data" >"$work/proved.out"
"$work/plain" "$work/most.nb" "$work/most.data" >"$work/plain.out"
cmp "$work/proved.out" "$work/plain.out"
for run in 1 2 3 4 5; do
    python3 bench/measure.py "run $run proved, job " 0 "$proved" "$work/most.nb" "$work/most.data"
    python3 bench/measure.py "run $run plain, job  " 0 "$work/plain" "$work/most.nb" "$work/most.data"
    python3 bench/measure.py "run $run proved, tree" 0 "$proved" "$work/most.nb"
done
