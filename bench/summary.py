"""An independent reading of the rules of scheduling in plain Python: what `nimbus replay --summary` has to print on
standard error, where objects are placed in turn, no worker is lost and no edit is proposed.

    python3 bench/summary.py WORKERS DRIVER [DATA]
"""
import sys

from reference import Driver

NONE = 32


def frame(body):
    """The bytes of a frame with a body of so many bytes: a length in seven bits a byte, and the body."""
    length = 1
    while body >> 7 * length:
        length += 1
    return length + body


def before_sets(entries):
    """How many earlier entries each entry waits for, by the slots that each reads and writes."""
    counts = []
    for at, (reads, writes) in enumerate(entries):
        waits = set()
        for slot in set(reads) | set(writes):
            for earlier in range(at - 1, -1, -1):
                its_reads, its_writes = entries[earlier]
                if slot in its_writes:
                    waits.add(earlier)
                    break
                if slot in its_reads and slot in writes:
                    waits.add(earlier)
        counts.append(len(waits))
    return counts


class Planner(Driver):
    def __init__(self, workers, text, data):
        super().__init__(text, data)
        self.workers, self.number = workers, {}
        self.loaded = {name for name, _ in self.parts_of(data)}
        for name, (count, _, _) in self.vars.items():
            for part in range(count):
                self.number[name, part] = len(self.number)
        objects = len(self.number)
        self.latest, self.held = [0] * objects, [{} for _ in range(workers)]
        self.bytes, self.orders, self.tasks = 0, [0] * workers, [0] * workers
        self.counts = dict.fromkeys(["instances", "single", "installed", "cached", "made", "repeated"], 0)
        self.position, self.recorded, self.decided, self.previous, self.patches = 0, set(), {}, NONE, {}
        for worker in range(workers):
            self.give(worker, 9 + 8 * objects)
        for (name, part), object in self.number.items():
            width, rows = self.values[name, part]
            size = 18 + 8 * width * len(rows) if name in self.loaded else 11
            self.give(object % workers, 11 + 5 + size + 2)
            self.held[object % workers][object] = 0

    def give(self, worker, body):
        self.bytes += frame(body)
        self.orders[worker] += 1

    def holder(self, object):
        return min(w for w in range(self.workers) if self.held[w].get(object) == self.latest[object])

    def forms(self, name):
        """The tasks of a block: reads and writes as objects, and each parameter as the bytes that it takes in a half."""
        names, stages = self.blocks[name]
        for _, reads, writes, params, each in stages:
            for index in range(self.vars[writes[0][0]][0] if each else 1):
                objects = lambda refs: [self.number[self.part(v, place, index)] for v, place in refs]
                yield objects(reads), objects(writes), [2 if it in names else 9 for it in params]

    def wrote(self, worker, object, version):
        self.held[worker][object] = self.latest[object] = version

    def single(self, forms):
        for task, (reads, writes, params) in enumerate(forms):
            home, lists = writes[0] % self.workers, {}
            for object in dict.fromkeys(reads):
                if self.held[home].get(object) != self.latest[object]:
                    lists.setdefault(self.holder(object), []).append((7, ([object], [])))
                    lists.setdefault(home, []).append((10, ([], [object])))
                    self.held[home][object] = self.latest[object]
            run = 8 + 1 + 1 + 8 * len(params) + 1 + 2 * len(reads) + 1 + 2 * len(writes)
            lists.setdefault(home, []).append((run, (reads, writes)))
            for worker in sorted(lists):
                sets = before_sets([slots for _, slots in lists[worker]])
                self.give(worker, 11 + sum(7 + size + 4 * waits for (size, _), waits in zip(lists[worker], sets)))
            for object in writes:
                self.wrote(home, object, self.position + task + 1)
            self.tasks[home] += 1

    def built(self, forms):
        """Halves, preconditions, effect: entries are (number, size, slots, the object received from before, or None)."""
        halves, needs, last, has = [[] for _ in range(self.workers)], [], {}, {}
        runs = [0] * self.workers
        for task, (reads, writes, params) in enumerate(forms):
            home = writes[0] % self.workers
            for k, object in enumerate(reads):
                if object in reads[:k]:
                    continue
                if object not in last:
                    if (home, object) not in needs:
                        needs.append((home, object))
                elif home not in has[object]:
                    halves[min(has[object])].append((64 * task + k, 7, ([object], [])))
                    halves[home].append((64 * task + 8 + k, 4, ([], [object])))
                    has[object].add(home)
            run = 1 + 1 + sum(params) + 1 + 2 * len(reads) + 1 + 2 * len(writes)
            halves[home].append((64 * task + 32, run, (reads, writes)))
            runs[home] += 1
            for object in writes:
                last[object], has[object] = task + 1, {home}
        closing = 0
        for worker, object in sorted(needs):
            if object in last and worker not in has[object]:
                halves[min(has[object])].append((65536 + closing, 7, ([object], [])))
                halves[worker].append((65536 + closing, 4, ([], [object])))
                has[object].add(worker)
                closing += 1
        return [sorted(half) for half in halves], sorted(needs), last, has, runs

    def reuse(self, block, args):
        halves, needs, last, has, runs = self.decided[block]
        failing = [(w, o) for w, o in needs if self.held[w].get(o) != self.latest[o]]
        new = block in self.recorded
        if new:
            self.recorded.discard(block)
            for worker, half in enumerate(halves):
                if half:
                    sets = before_sets([slots for _, _, slots in half])
                    self.give(worker, 10 + sum(7 + size + 4 * waits for (_, size, _), waits in zip(half, sets)))
        self.counts["installed" if new else "cached"] += 1
        if failing:
            copies = tuple((self.holder(o), w, o) for w, o in failing)
            key = self.previous, block
            hit = self.patches.get(key) == copies
            self.patches.pop(key, None)
            self.patches[key] = copies
            if len(self.patches) > 64:
                del self.patches[next(iter(self.patches))]
            self.counts["repeated" if hit else "made"] += 1
            for worker in range(self.workers):
                ends = [c for c in copies for end in c[:2] if end == worker]
                if ends and not hit:
                    self.give(worker, 8 + 6 * len(ends))
                if ends:
                    self.give(worker, 12 + 8 * sum(c[1] == worker for c in copies))
            for _, worker, object in copies:
                self.held[worker][object] = self.latest[object]
        for worker, half in enumerate(halves):
            if half:
                self.give(worker, 22 + 8 * args)
                self.tasks[worker] += runs[worker]
        for object, offset in last.items():
            self.latest[object] = self.position + offset
            for worker in has[object]:
                self.held[worker][object] = self.latest[object]

    def run_block(self, name, args):
        super().run_block(name, args)
        forms = list(self.forms(name))
        self.counts["instances"] += 1
        if name in self.decided:
            self.reuse(name, len(args))
        else:
            self.counts["single"] += 1
            self.single(forms)
            self.recorded.add(name)
            self.decided[name] = self.built(forms)
        self.previous, self.position = name, self.position + len(forms)

    def fetch(self, object):
        self.give(self.holder(object), 11 + 5 + 6 + 2)

    def do(self, line):
        if line[0] == "get":
            self.fetch(self.number[line[3], int(line[5]) % self.vars[line[3]][0]])
        if line[0] == "output":
            for part in range(self.vars[line[1]][0]):
                self.fetch(self.number[line[1], part])
        super().do(line)

    def summary(self):
        self.run()
        c = self.counts
        lines = ["instances {instances} single {single} installed {installed} cached {cached}", "patches made {made} repeated {repeated}"]
        lines = [line.format(**c) for line in lines] + ["edits taken 0 refused 0", "rollbacks 0", f"control {self.bytes}"]
        return lines + [f"worker {w} live tasks {self.tasks[w]} orders {self.orders[w]}" for w in range(self.workers)]


if __name__ == "__main__":
    files = [open(it).read() for it in sys.argv[2:]]
    print("\n".join(Planner(int(sys.argv[1]), files[0], files[1] if len(files) > 1 else "").summary()))
