#!/usr/bin/env bash
# 64 parts of 1,024 cells and 1,000 instances of a block (64,000 tasks), beside the same loop in plain Rust.
# Prints seconds, tasks a second and peak memory of each, three times. Needs rustc, python3 and GNU time.
set -eu
cd "$(dirname "$0")/.."
work=$(mktemp -d)
trap 'rm -rf "$work"' EXIT
{
    printf 'nimbus 1\nvar a parts 64 width 32 rows 32 fill 3\n'
    printf 'block b()\naddc a[i] -> a[i] with 1 each i\nend\n'
    for _ in $(seq 1000); do printf 'do b()\n'; done
    printf 'output a\n'
} >"$work/first.nb"
rustc -O -o "$work/plain" bench/plain/first_path.rs
./nimbus replay "$work/first.nb" >"$work/nimbus.out"
"$work/plain" >"$work/plain.out"
cmp "$work/nimbus.out" "$work/plain.out"
for run in 1 2 3; do
    python3 bench/measure.py "run $run nimbus" 64000 crates/nimbus/out/nimbus replay "$work/first.nb"
    python3 bench/measure.py "run $run plain " 64000 "$work/plain"
done
