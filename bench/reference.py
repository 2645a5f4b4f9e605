"""An independent reading of the language in plain Python: what `nimbus replay` has to print. It checks no rule.

    python3 bench/reference.py DRIVER [DATA]
"""
import re
import sys

GREATEST = 2**64 - 1
TOKEN = re.compile(r"[A-Za-z]\w*|\d+|->|<=|>=|!=|[\[\](),+\-*/%=<>]")


def wrapped(number):
    number &= GREATEST
    return number - 2**64 if number >> 63 else number


def quotient(a, b):
    return 0 if b == 0 else wrapped(a // b if b > 0 else -(a // -b))


def remainder(a, b):
    return 0 if b == 0 else a % abs(b)


def fitted(value, shape):
    width, rows = shape
    return width, [(row + [0] * width)[:width] for row in value[1][:rows]]


def cell(value, row, column):
    return value[1][row][column] if 0 <= row < len(value[1]) and 0 <= column < value[0] else 0


def combined(values, f):
    width, rows = max(v[0] for v in values), max(len(v[1]) for v in values)
    return width, [[f([cell(v, r, c) for v in values]) for c in range(width)] for r in range(rows)]


def grouped(values, key, amount):
    sums = {}
    for value in values:
        for r in range(len(value[1])):
            k = cell(value, r, key)
            sums[k] = wrapped(sums.get(k, 0) + cell(value, r, amount))
    return 2, [[k, sums[k]] for k in sorted(sums)]


def stencil(above, middle, below, k, d):
    rows = len(middle[1])
    up = lambda r, c: cell(middle, r - 1, c) if r else cell(above, len(above[1]) - 1, c)
    down = lambda r, c: cell(middle, r + 1, c) if r + 1 < rows else cell(below, 0, c)
    at = lambda r, c: wrapped(k * middle[1][r][c] + up(r, c) + down(r, c) + cell(middle, r, c - 1) + cell(middle, r, c + 1))
    return middle[0], [[quotient(at(r, c), d) for c in range(middle[0])] for r in range(rows)]


def applied(func, p, reads, shapes):
    first = reads[0] if reads else None
    rows = range(len(first[1])) if reads else ()
    small = lambda r: cell(first, r, p[0]) < p[1]
    made = {
        "set": lambda: [(shapes[0][0], [[p[0]] * shapes[0][0] for _ in range(shapes[0][1])])],
        "copy": lambda: [first],
        "addc": lambda: [combined([first], lambda x: wrapped(x[0] + p[0]))],
        "mulc": lambda: [combined([first], lambda x: wrapped(x[0] * p[0]))],
        "add": lambda: [combined(reads, lambda x: wrapped(sum(x)))],
        "sub": lambda: [combined(reads, lambda x: wrapped(x[0] - x[1]))],
        "max": lambda: [combined(reads, max)],
        "sum": lambda: [combined(reads, lambda x: wrapped(sum(x)))],
        "total": lambda: [(1, [[wrapped(sum(x for v in reads for row in v[1] for x in row))]])],
        "count": lambda: [(1, [[sum(len(v[1]) for v in reads)]])],
        "stencil": lambda: [stencil(*reads, *p)],
        "keep": lambda: [(first[0], [first[1][r] for r in rows if p[1] <= cell(first, r, p[0]) <= p[2]])],
        "group": lambda: [grouped(reads, *p)],
        "merge": lambda: [grouped(reads, 0, 1)],
        "split": lambda: [(first[0], [first[1][r] for r in rows if small(r)]), (first[0], [first[1][r] for r in rows if not small(r)])],
    }[func]()
    return [fitted(v, s) for v, s in zip(made, shapes)]


class Limit(Exception):
    pass


class Driver:
    def __init__(self, text, data):
        lines = [TOKEN.findall(line.split("#")[0]) for line in text.split("\n")]
        self.lines, self.at = [line for line in lines if line], 1
        self.steps, self.vars, self.blocks, self.values = 1_000_000, {}, {}, {}
        parts = self.parts_of(data)
        if self.now()[:1] == ["steps"]:
            self.steps = int(self.take()[1])
        while self.now()[:1] == ["var"]:
            self.var(self.take(), parts)
        while self.now()[:1] == ["block"]:
            self.block(self.take())
        self.body = self.statements()

    def now(self):
        return self.lines[self.at] if self.at < len(self.lines) else []

    def take(self):
        self.at += 1
        return self.lines[self.at - 1]

    @staticmethod
    def parts_of(data):
        lines, parts, at = [line.split() for line in data.split("\n") if line.split()], {}, 0
        while at < len(lines):
            name, (part, rows, width) = lines[at][0], map(int, lines[at][1:])
            parts[name, part] = width, [list(map(int, line)) for line in lines[at + 1 : at + 1 + rows]]
            at += 1 + rows
        return parts

    def var(self, line, loaded):
        name, count, width, rows, init = line[1], int(line[3]), int(line[5]), int(line[7]), line[8:]
        self.vars[name] = count, width, rows
        for part in range(count):
            if init[0] == "fill":
                value = width, [[int("".join(init[1:]))] * width for _ in range(rows)]
            elif init[0] == "iota":
                value = width, [[(part * rows + r) * width + c for c in range(width)] for r in range(rows)]
            else:
                value = loaded[name, part]
            self.values[name, part] = value

    def block(self, head):
        name, args, stages = head[1], [w for w in head[3:-1] if w != ","], []
        while self.now() != ["end"]:
            text = " ".join(self.take())
            each = text.endswith(" each i")
            text = text.removesuffix(" each i")
            func, _, rest = text.partition(" ")
            reads, _, rest = (" " + rest).partition("->")
            writes, _, params = rest.partition(" with ")
            refs = lambda it: [(v, p.replace(" ", "")) for v, p in re.findall(r"(\w+) \[ ([^\]]*) \]", it)]
            stages.append((func, refs(reads), refs(writes), re.findall(r"- \d+|\w+", params), each))
        self.take()
        self.blocks[name] = args, stages

    def statements(self):
        body = []
        while self.now() and self.now() not in (["end"], ["else"]):
            line = self.take()
            if line[0] in ("loop", "while", "if"):
                first, second = self.statements(), []
                if self.now() == ["else"]:
                    self.take()
                    second = self.statements()
                self.take()
                body.append((line, first, second))
            else:
                body.append((line, [], []))
        return body

    def atom(self, words):
        return int("".join(words)) if words[0] == "-" or words[0].isdigit() else self.scalars[words[0]]

    def atoms(self, words):
        out, at = [], 0
        while at < len(words):
            size = 2 if words[at] == "-" and (at == 0 or out[-1:] in (["op"],)) else 1
            if words[at] in ("+", "*", "/", "%", "<", "<=", "=", "!=", ">", ">=") or words[at] == "-" and size == 1:
                self.op = words[at]
                out.append("op")
            else:
                out.append(self.atom(words[at : at + size]))
            at += size
        return [it for it in out if it != "op"]

    def holds(self, words):
        found = self.atoms(words)
        if len(found) == 1:
            return found[0] != 0
        a, b = found
        return {"<": a < b, "<=": a <= b, "=": a == b, "!=": a != b, ">": a > b, ">=": a >= b}[self.op]

    def count(self):
        if self.counted == self.steps:
            raise Limit
        self.counted += 1

    def part(self, name, place, index):
        count = self.vars[name][0]
        return name, (index if place == "i" else index + int(place[1:]) if place[0] == "i" else int(place)) % count

    def run_block(self, name, args):
        names, stages = self.blocks[name]
        given = dict(zip(names, args))
        for func, reads, writes, params, each in stages:
            for index in range(self.vars[writes[0][0]][0] if each else 1):
                p = [int(w.replace(" ", "")) if w[0] == "-" or w.isdigit() else given[w] for w in params]
                read = [self.values[self.part(v, place, index)] for v, place in reads]
                to = [self.part(v, place, index) for v, place in writes]
                made = applied(func, p, read, [self.vars[v][1:] for v, _ in to])
                self.values.update(zip(to, made))

    def output(self, name):
        for part in range(self.vars[name][0]):
            width, rows = self.values[name, part]
            self.text += f"{name} {part} {len(rows)} {width}\n" + "".join(" ".join(map(str, row)) + "\n" for row in rows)
        if len(self.text) > 16_777_216:
            raise Limit

    def do(self, line):
        if line[0] == "do":
            inner = " ".join(line[3:-1]).split(",")
            self.run_block(line[1], [self.atom(w.split()) for w in inner if w.strip()])
        elif line[0] == "let":
            found = self.atoms(line[3:])
            ops = {"+": lambda a, b: wrapped(a + b), "-": lambda a, b: wrapped(a - b), "*": lambda a, b: wrapped(a * b), "/": quotient, "%": remainder}
            self.scalars[line[1]] = found[0] if len(found) == 1 else ops[self.op](*found)
        elif line[0] == "get":
            value = self.values[line[3], int(line[5]) % self.vars[line[3]][0]]
            self.scalars[line[1]] = cell(value, int(line[7]), int(line[8]))
        elif line[0] == "output":
            self.output(line[1])

    def body_of(self, body):
        for line, first, second in body:
            self.count()
            if line[0] == "loop":
                for _ in range(max(self.atom(line[1:]), 0)):
                    self.body_of(first)
                    self.count()
            elif line[0] == "while":
                while self.holds(line[1:]):
                    self.body_of(first)
                    self.count()
            elif line[0] == "if":
                self.body_of(first if self.holds(line[1:]) else second)
            else:
                self.do(line)

    def run(self):
        self.scalars, self.counted, self.text = {}, 0, ""
        self.body_of(self.body)
        return self.text


if __name__ == "__main__":
    files = [open(it).read() for it in sys.argv[1:]]
    try:
        sys.stdout.write(Driver(files[0], files[1] if len(files) > 1 else "").run())
    except Limit:
        print("nimbus: limit", file=sys.stderr)
        sys.exit(4)
