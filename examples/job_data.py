"""Prints the data of examples/job.nb, made from a number: python3 examples/job_data.py NUMBER.

The parts of `g` have cells below 1000. The parts of `t` have rows of a key below 16, the row's number over all parts,
and an amount below 100.
"""
import sys

MASK = 2**64 - 1
state = int(sys.argv[1]) & MASK


def draw():
    """The next number of a sequence that the number given determines."""
    global state
    state = (state * 6364136223846793005 + 1442695040888963407) & MASK
    return state >> 33


for part in range(8):
    print("g", part, 8, 64)
    for _ in range(8):
        print(*(draw() % 1000 for _ in range(64)))
for part in range(8):
    print("t", part, 64, 3)
    for row in range(64):
        print(draw() % 16, part * 64 + row, draw() % 100)
