#!/usr/bin/env bash
# A data file of 16,711,680 rows of one cell, of which the driver wants a sixteenth: it is read to its end, and refused
# by `check` at the first part that isn't wanted. Beside it a plain Rust program that reads the same file. Prints seconds
# and peak memory of each, three times, and the instructions of each. Needs rustc, python3, GNU time and valgrind.
set -eu
cd "$(dirname "$0")/.."
work=$(mktemp -d)
trap 'rm -rf "$work"' EXIT
printf 'nimbus 1\nvar a parts 16 width 1 rows 65536 load\noutput a\n' >"$work/rows.nb"
python3 - "$work/rows.data" <<'END'
import sys
with open(sys.argv[1], "w") as data:
    for part in range(255):
        data.write(f"a {part % 64} 65536 1\n" + "7\n" * 65536)
END
rustc -O -o "$work/plain" bench/plain/rows.rs
./nimbus check "$work/rows.nb" --data "$work/rows.data" || test $? -eq 2
check=(crates/nimbus/out/nimbus check "$work/rows.nb" --data "$work/rows.data")
for run in 1 2 3; do
    python3 bench/measure.py "run $run nimbus" 0 bash -c '"$@" || test $? -eq 2' check "${check[@]}"
    python3 bench/measure.py "run $run plain " 0 "$work/plain" "$work/rows.data"
done
for what in nimbus plain; do
    command=("${check[@]}")
    test "$what" = nimbus || command=("$work/plain" "$work/rows.data")
    valgrind --tool=callgrind --callgrind-out-file=/dev/null "${command[@]}" 2>&1 >/dev/null |
        sed -n "s/.*Collected : \([0-9]*\)/$what: \1 instructions/p"
done
