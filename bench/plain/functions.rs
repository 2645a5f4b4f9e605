// The functions of bench/functions.sh in plain Rust: each makes a new value, or two, from what it reads.
use std::collections::BTreeMap;
use std::hint::black_box;
use std::time::Instant;

const TURNS: usize = 10_000;

struct Value {
    width: usize,
    rows: usize,
    cells: Vec<i64>,
}

impl Value {
    fn new(width: usize, rows: usize, cells: Vec<i64>) -> Value {
        Value { width, rows, cells }
    }

    fn lines(&self) -> std::slice::Chunks<'_, i64> {
        self.cells.chunks(self.width)
    }

    fn line(&self, row: usize) -> &[i64] {
        if row < self.rows {
            &self.cells[row * self.width..(row + 1) * self.width]
        } else {
            &[]
        }
    }

    fn cell(&self, row: usize, column: usize) -> i64 {
        if row < self.rows && column < self.width {
            self.cells[row * self.width + column]
        } else {
            0
        }
    }

    // Cut or padded with 0; cells of the same width are kept where they lie.
    fn fitted(mut self, width: usize, rows: usize) -> Value {
        if width == self.width {
            self.rows = self.rows.min(rows);
            self.cells.truncate(self.rows * width);
            return self;
        }
        let mut cells = Vec::with_capacity(rows.min(self.rows) * width);
        for line in self.lines().take(rows) {
            cells.extend(line.iter().take(width));
            cells.extend(std::iter::repeat_n(0, width.saturating_sub(line.len())));
        }
        Value::new(width, rows.min(self.rows), cells)
    }
}

fn at(line: &[i64], column: i64) -> i64 {
    usize::try_from(column).ok().and_then(|c| line.get(c).copied()).unwrap_or(0)
}

fn set(width: usize, rows: usize, number: i64) -> Value {
    Value::new(width, rows, vec![number; width * rows])
}

fn copy(read: &Value) -> Value {
    Value::new(read.width, read.rows, read.cells.clone())
}

fn each(read: &Value, change: impl Fn(i64) -> i64) -> Value {
    Value::new(read.width, read.rows, read.cells.iter().map(|cell| change(*cell)).collect())
}

fn pairs(first: &Value, second: &Value, pair: impl Fn(i64, i64) -> i64) -> Value {
    if (first.width, first.rows) == (second.width, second.rows) {
        let places = first.cells.iter().zip(&second.cells);
        let cells = places.map(|(one, other)| pair(*one, *other)).collect();
        return Value::new(first.width, first.rows, cells);
    }
    let (width, rows) = (first.width.max(second.width), first.rows.max(second.rows));
    let mut cells = Vec::with_capacity(width * rows);
    for row in 0..rows {
        let (one, other) = (first.line(row), second.line(row));
        for column in 0..width {
            let left = one.get(column).copied().unwrap_or(0);
            let right = other.get(column).copied().unwrap_or(0);
            cells.push(pair(left, right));
        }
    }
    Value::new(width, rows, cells)
}

fn sum(reads: &[&Value]) -> Value {
    let width = reads.iter().map(|read| read.width).max().unwrap_or(0);
    let rows = reads.iter().map(|read| read.rows).max().unwrap_or(0);
    let mut cells = vec![0i64; width * rows];
    for read in reads {
        for (sums, line) in cells.chunks_mut(width).zip(read.lines()) {
            for (sum, cell) in sums.iter_mut().zip(line) {
                *sum = sum.wrapping_add(*cell);
            }
        }
    }
    Value::new(width, rows, cells)
}

fn total(reads: &[&Value]) -> Value {
    let cells = reads.iter().flat_map(|read| &read.cells);
    Value::new(1, 1, vec![cells.fold(0i64, |sum, cell| sum.wrapping_add(*cell))])
}

fn count(reads: &[&Value]) -> Value {
    Value::new(1, 1, vec![reads.iter().map(|read| read.rows as i64).sum()])
}

fn stencil(factor: i64, divisor: i64, above: &Value, middle: &Value, below: &Value) -> Value {
    let cell = |line: &[i64], column: usize| line.get(column).copied().unwrap_or(0);
    let mut cells = Vec::with_capacity(middle.cells.len());
    for row in 0..middle.rows {
        let up = if row == 0 { above.line(above.rows.wrapping_sub(1)) } else { middle.line(row - 1) };
        let down = if row + 1 == middle.rows { below.line(0) } else { middle.line(row + 1) };
        let here = middle.line(row);
        for column in 0..middle.width {
            let left = if column == 0 { 0 } else { here[column - 1] };
            let sum = factor
                .wrapping_mul(here[column])
                .wrapping_add(cell(up, column))
                .wrapping_add(cell(down, column))
                .wrapping_add(left)
                .wrapping_add(cell(here, column + 1));
            cells.push(if divisor == 0 { 0 } else { sum.wrapping_div_euclid(divisor) });
        }
    }
    Value::new(middle.width, middle.rows, cells)
}

fn keep(read: &Value, column: i64, low: i64, high: i64) -> Value {
    let mut cells = Vec::new();
    for line in read.lines().filter(|line| (low..=high).contains(&at(line, column))) {
        cells.extend_from_slice(line);
    }
    Value::new(read.width, cells.len() / read.width, cells)
}

fn split(read: &Value, column: i64, pivot: i64) -> [Value; 2] {
    let (mut below, mut rest) = (Vec::new(), Vec::new());
    for line in read.lines() {
        if at(line, column) < pivot { &mut below } else { &mut rest }.extend_from_slice(line);
    }
    [below, rest].map(|cells| Value::new(read.width, cells.len() / read.width, cells))
}

fn grouped(reads: &[&Value], column: i64, summed: i64) -> Value {
    let mut sums: BTreeMap<i64, i64> = BTreeMap::new();
    for line in reads.iter().flat_map(|read| read.lines()) {
        let sum = sums.entry(at(line, column)).or_insert(0);
        *sum = sum.wrapping_add(at(line, summed));
    }
    Value::new(2, sums.len(), sums.iter().flat_map(|(key, sum)| [*key, *sum]).collect())
}

fn measure(name: &str, work: impl Fn() -> Vec<Value>) {
    let mut sum = 0i64;
    let start = Instant::now();
    for turn in 0..TURNS {
        for value in black_box(work()) {
            sum = sum.wrapping_add(value.cell(turn % 64, turn % 61));
        }
    }
    println!("{name} {} {sum}", start.elapsed().as_micros());
}

fn value_from(step: i64) -> Value {
    let cells = (0..64).flat_map(|row| (0..64).map(move |column| (row * step + column * 11) % 64));
    Value::new(64, 64, cells.collect())
}

fn main() {
    let values = [value_from(37), value_from(21), value_from(5)];
    let [first, second, third] = black_box(&values);
    let [zero, three, seven] = black_box([0i64, 3, 7]);
    let (one, low, middle, high) = black_box((1i64, 16, 32, 47));
    measure("set", || vec![set(64, 64, seven).fitted(64, 64)]);
    measure("copy", || vec![copy(first).fitted(64, 64)]);
    measure("addc", || vec![each(first, |cell| cell.wrapping_add(seven)).fitted(64, 64)]);
    measure("mulc", || vec![each(first, |cell| cell.wrapping_mul(seven)).fitted(64, 64)]);
    measure("add", || vec![pairs(first, second, i64::wrapping_add).fitted(64, 64)]);
    measure("sub", || vec![pairs(first, second, i64::wrapping_sub).fitted(64, 64)]);
    measure("max", || vec![pairs(first, second, i64::max).fitted(64, 64)]);
    measure("sum", || vec![sum(&[first, second, third]).fitted(64, 64)]);
    measure("total", || vec![total(&[first, second, third]).fitted(1, 1)]);
    measure("count", || vec![count(&[first, second, third]).fitted(1, 1)]);
    measure("stencil", || vec![stencil(three, seven, first, second, third).fitted(64, 64)]);
    measure("keep", || vec![keep(first, zero, low, high).fitted(64, 64)]);
    measure("group", || vec![grouped(&[first], zero, one).fitted(2, 64)]);
    measure("merge", || vec![grouped(&[first, second], zero, one).fitted(2, 64)]);
    measure("split", || split(first, zero, middle).map(|part| part.fitted(64, 64)).into());
}
