"""Runs two programs in turn, nine times each, and compares the best time of each of the functions that both name.

Each prints lines `NAME MICROSECONDS SUM`; the sums must be the same. A turn counts 4,096 cells, ten thousand turns a line.
"""
import subprocess
import sys

CELLS = 4096 * 10_000


def lines_of(program):
    printed = subprocess.run([program], stdout=subprocess.PIPE, check=True, text=True).stdout
    return {name: (int(micros), total) for name, micros, total in map(str.split, printed.splitlines())}


proved, plain = [], []
for _ in range(9):
    proved.append(lines_of(sys.argv[1]))
    plain.append(lines_of(sys.argv[2]))
print("| function | proved | plain Rust | ratio |")
print("|---|---|---|---|")
for name in proved[0]:
    sums = {run[name][1] for run in proved + plain}
    if len(sums) != 1:
        sys.exit(f"{name}: the programs differ: {sums}")
    best, rival = (min(run[name][0] for run in runs) for runs in (proved, plain))
    print(f"| `{name}` | {CELLS / max(best, 1):,.0f} M cells a second | {CELLS / max(rival, 1):,.0f} M | {best / max(rival, 1):.2f} |")
