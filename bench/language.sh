#!/usr/bin/env bash
# The job of examples/job.nb with 400 turns, and 499,998 `let`s in a loop (a million statements), through `replay`, each
# beside the same in plain Rust. Prints seconds and peak memory of each, three times, and the instructions of each.
# Needs rustc, python3, GNU time and valgrind.
set -eu
cd "$(dirname "$0")/.."
work=$(mktemp -d)
trap 'rm -rf "$work"' EXIT
sed 's/^loop 50$/loop 400/' examples/job.nb >"$work/job.nb"
python3 examples/job_data.py 1 >"$work/job.data"
printf 'nimbus 1\nlet x = 0\nloop 499998\nlet x = x + 1\nend\n' >"$work/lets.nb"
rustc -O -o "$work/plain_job" bench/plain/language.rs
rustc -O -o "$work/plain_lets" bench/plain/lets.rs
job=(./nimbus replay "$work/job.nb" --data "$work/job.data")
"${job[@]}" >"$work/nimbus.out"
"$work/plain_job" 400 "$work/job.data" >"$work/plain.out"
cmp "$work/nimbus.out" "$work/plain.out"
job[0]=crates/nimbus/out/nimbus
lets=(crates/nimbus/out/nimbus replay "$work/lets.nb")

instructions() {
    valgrind --tool=callgrind --callgrind-out-file=/dev/null "${@:2}" 2>&1 >/dev/null |
        sed -n "s/.*Collected : \([0-9]*\)/$1: \1 instructions/p"
}

for run in 1 2 3; do
    python3 bench/measure.py "run $run job, nimbus" 0 "${job[@]}"
    python3 bench/measure.py "run $run job, plain " 0 "$work/plain_job" 400 "$work/job.data"
    python3 bench/measure.py "run $run lets, nimbus" 0 "${lets[@]}"
    python3 bench/measure.py "run $run lets, plain " 0 "$work/plain_lets" 499998
done
instructions "job, nimbus" "${job[@]}"
instructions "job, plain" "$work/plain_job" 400 "$work/job.data"
instructions "lets, nimbus" "${lets[@]}"
instructions "lets, plain" "$work/plain_lets" 499998
