"""Writes a driver of 1,048,576 bytes and a data file of 33,554,432 bytes, the greatest that are read, into a folder.

The driver loads a variable of 1,048,576 cells, and has as many blocks, scalars and nested statements as it may. Each
number of the data is any of 64 bits with its sign, put right into 31 columns.
"""
import pathlib
import random
import sys

DRIVER, DATA = 1_048_576, 33_554_432
PARTS, SIDE = 64, 128
draw = random.Random(1)

head = ["nimbus 1", "steps 1000000", f"var g parts {PARTS} width {SIDE} rows {SIDE - 1} load", "var h parts 8 width 64 rows 16 fill -3"]
for block in range(32):
    head.append(f"block b{block}(k, d)")
    head += [f"stencil g[i - 1] g[i] g[i + {block}] -> h[i] with k d each i", f"copy h[{block}] -> h[{block + 1}]", "end"]
head += [f"let s{scalar} = {scalar}" for scalar in range(64)]

group = []
for depth in range(16):
    group.append(["loop {n}", "while s{a} < {n}", "if s{a} != s{b}"][depth % 3])
    group.append("let s{a} = s{b} {o} {n}")
group += ["do b{k}(s{a}, {n}) # a task", "get s{a} = g[{n}] {k} 3", "output h", "checkpoint"]
group += ["end", "let s{b} = -{n}"] * 16

lines, length = head, sum(len(line) + 1 for line in head)
while True:
    made = [line.format(a=draw.randrange(64), b=draw.randrange(64), k=draw.randrange(32), n=draw.randrange(10**9), o=draw.choice("+-*/%")) for line in group]
    more = sum(len(line) + 1 for line in made)
    if length + more > DRIVER - 2:
        break
    lines += made
    length += more
lines.append("#" * (DRIVER - length - 1))

folder = pathlib.Path(sys.argv[1])
folder.joinpath("most.nb").write_text("\n".join(lines) + "\n")
rows = []
for part in range(PARTS):
    rows.append(f"g {part} {SIDE - 1} {SIDE}")
    for _ in range(SIDE - 1):
        rows.append(" ".join(f"{draw.randrange(-2**63, 2**63):31d}" for _ in range(SIDE)))
size = sum(len(row) + 1 for row in rows)
rows.append(" " * (DATA - size - 1))
folder.joinpath("most.data").write_text("\n".join(rows) + "\n")
for name, wanted in (("most.nb", DRIVER), ("most.data", DATA)):
    assert folder.joinpath(name).stat().st_size == wanted, name
