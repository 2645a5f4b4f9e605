"""Draws what ran on a cluster as a picture: workers as rows, tasks in the order in which they were finished.

    python3 bench/trace.py CASE >trace.svg

CASE is a case of crates/nim_cases with a section `trace`, or a file of such lines alone: `WORKER EPOCH POSITION` and an
`OBJECT@VERSION` for each read. A task is a box with its position; a line leads to it from each task whose result it read.
"""
import sys

WIDTH, HEIGHT, LEFT = 44, 40, 90
COLOURS = ["#cfe8ff", "#ffe3c2", "#d7f5d0", "#f3d6f5", "#fff3b0", "#d9d9f3", "#f7cfcf", "#cff3ee"]


def trace_lines(text):
    """The lines of the section `trace`, or all lines where there is no heading."""
    if "-- trace --\n" in text:
        text = text.split("-- trace --\n", 1)[1].split("\n-- ", 1)[0]
    return [line.split() for line in text.splitlines() if line and not line.startswith("-- ")]


def box_of(order, worker):
    return LEFT + order * WIDTH, 20 + worker * (HEIGHT + 20)


def picture(runs):
    """The picture of runs, each a worker, an epoch, a position and the versions that it read."""
    places = {(epoch, position): (order, worker) for order, (worker, epoch, position, _) in enumerate(runs)}
    workers = max(worker for worker, *_ in runs) + 1
    width, height = LEFT + len(runs) * WIDTH + 10, 20 + workers * (HEIGHT + 20)
    yield f'<svg xmlns="http://www.w3.org/2000/svg" width="{width}" height="{height}" font-family="sans-serif" font-size="13">'
    yield f'<rect width="{width}" height="{height}" fill="white"/>'
    for worker in range(workers):
        yield f'<text x="8" y="{box_of(0, worker)[1] + 25}">worker {worker}</text>'
    for order, (worker, epoch, position, reads) in enumerate(runs):
        x, y = box_of(order, worker)
        for version in reads:
            if version and (epoch, version - 1) in places:
                from_x, from_y = box_of(*places[epoch, version - 1])
                yield (f'<line x1="{from_x + WIDTH - 8}" y1="{from_y + HEIGHT / 2}" x2="{x}" y2="{y + HEIGHT / 2}" '
                       'stroke="#888"/>')
    for order, (worker, epoch, position, _) in enumerate(runs):
        x, y = box_of(order, worker)
        colour = COLOURS[worker % len(COLOURS)]
        yield f'<rect x="{x}" y="{y}" width="{WIDTH - 8}" height="{HEIGHT}" fill="{colour}" stroke="#444"/>'
        yield f'<text x="{x + (WIDTH - 8) / 2}" y="{y + 25}" text-anchor="middle">{position}</text>'
    yield "</svg>"


def main():
    if len(sys.argv) != 2:
        sys.exit(__doc__)
    with open(sys.argv[1]) as case:
        lines = trace_lines(case.read())
    if not lines:
        sys.exit(f"{sys.argv[1]} has no trace")
    runs = [(int(w), int(e), int(p), [int(read.split("@")[1]) for read in reads]) for w, e, p, *reads in lines]
    print("\n".join(picture(runs)))


if __name__ == "__main__":
    main()
