"""How many commands single scheduling gives for the job of examples/job.nb, by its rules alone.

    python3 bench/commands.py WORKERS TURNS

It walks the job's tasks with a map of which version lies at which worker, objects placed round the workers: a Run for
each task, a Send and a Receive for each object that a task reads and its worker doesn't have in the latest version, a
Create or Load for each object, and a Fetch for each object that a `get` or `output` asks for.
"""
import sys

PARTS = {"g": 8, "h": 8, "s": 8, "z": 1, "t": 8, "u": 8, "m": 1}


def objects():
    """The number of each part."""
    numbers = {}
    for name, parts in PARTS.items():
        for part in range(parts):
            numbers[name, part] = len(numbers)
    return numbers


def tasks(turns):
    """Reads and writes of each task, in order, and of each fetch, with nothing written."""
    around = range(8)
    for turn in range(1, turns + 1):
        yield from (([("g", (i - 1) % 8), ("g", i), ("g", (i + 1) % 8)], ("h", i)) for i in around)
        yield from (([("h", i)], ("g", i)) for i in around)
        if turn % 10 == 0:
            yield from (([("g", i)], ("s", i)) for i in around)
            yield [("s", i) for i in around], ("z", 0)
            yield [("z", 0)], None
    yield from (([("t", i)], ("u", i)) for i in around)
    yield [("u", i) for i in around], ("m", 0)
    for name in "gzm":
        yield from (([(name, part)], None) for part in range(PARTS[name]))


def commands(workers, turns):
    numbers = objects()
    held = {part: {number % workers} for part, number in numbers.items()}
    count = len(numbers)
    for reads, writes in tasks(turns):
        count += 1
        if writes is None:
            continue
        owner = numbers[writes] % workers
        for part in dict.fromkeys(reads):
            if owner not in held[part]:
                held[part].add(owner)
                count += 2
        held[writes] = {owner}
    return count


if __name__ == "__main__":
    if len(sys.argv) != 3:
        sys.exit(__doc__)
    print(commands(int(sys.argv[1]), int(sys.argv[2])))
