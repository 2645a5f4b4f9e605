#!/usr/bin/env bash
# The job of examples/job.nb with 400 turns, through `replay` with 1 to 16 workers, beside the same in plain Rust: seconds
# and peak memory three times, and instructions. Then the same job with values of one cell, whose instructions are the
# control work: for each number of workers the instructions, and those a command, of which `commands.py` counts how many
# there are. Needs rustc, python3, GNU time and valgrind.
set -eu
cd "$(dirname "$0")/.."
work=$(mktemp -d)
trap 'rm -rf "$work"' EXIT
sed 's/^loop 50$/loop 400/' examples/job.nb >"$work/job.nb"
python3 examples/job_data.py 1 >"$work/job.data"
sed 's/width [0-9]* rows [0-9]* load/width 1 rows 1 fill 3/; s/width [0-9]* rows [0-9]* fill/width 1 rows 1 fill/' \
    "$work/job.nb" >"$work/small.nb"
rustc -O -o "$work/plain" bench/plain/language.rs
./nimbus replay "$work/job.nb" --data "$work/job.data" --workers 1 >"$work/nimbus.out"
"$work/plain" 400 "$work/job.data" >"$work/plain.out"
cmp "$work/nimbus.out" "$work/plain.out"

instructions() {
    valgrind --tool=callgrind --callgrind-out-file=/dev/null "$@" 2>&1 >/dev/null |
        sed -n 's/.*Collected : \([0-9]*\)/\1/p'
}

for run in 1 2 3; do
    python3 bench/measure.py "run $run plain" 0 "$work/plain" 400 "$work/job.data"
done
echo "plain: $(instructions "$work/plain" 400 "$work/job.data") instructions"
for workers in 1 2 4 8 16; do
    job=(crates/nimbus/out/nimbus replay "$work/job.nb" --data "$work/job.data" --workers "$workers")
    small=(crates/nimbus/out/nimbus replay "$work/small.nb" --workers "$workers")
    "${job[@]}" >"$work/again.out"
    cmp "$work/again.out" "$work/plain.out"
    for run in 1 2 3; do
        python3 bench/measure.py "run $run $workers workers" 0 "${job[@]}"
    done
    control=$(instructions "${small[@]}")
    commands=$(python3 bench/commands.py "$workers" 400)
    echo "$workers workers: $(instructions "${job[@]}") instructions, with one cell $control, $((control / commands)) a command"
done
