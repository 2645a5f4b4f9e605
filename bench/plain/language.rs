// What examples/job.nb prints with as many turns as the first word says, computed in plain Rust; the data are read from
// the file that the second word names.
use std::collections::BTreeMap;
use std::fmt::Write;

const SIDE: usize = 64;
const ROWS: usize = 8;
const PARTS: usize = 8;

type Grid = Vec<i64>;
type Table = Vec<[i64; 3]>;

fn stencil(above: &Grid, middle: &Grid, below: &Grid, k: i64, d: i64) -> Grid {
    let mut made = Vec::with_capacity(middle.len());
    for row in 0..ROWS {
        for column in 0..SIDE {
            let at = row * SIDE + column;
            let up = if row == 0 { above[(ROWS - 1) * SIDE + column] } else { middle[at - SIDE] };
            let down = if row + 1 == ROWS { below[column] } else { middle[at + SIDE] };
            let left = if column == 0 { 0 } else { middle[at - 1] };
            let right = if column + 1 == SIDE { 0 } else { middle[at + 1] };
            let sum = k.wrapping_mul(middle[at]).wrapping_add(up).wrapping_add(down).wrapping_add(left).wrapping_add(right);
            made.push(if d == 0 { 0 } else { sum.wrapping_div_euclid(d) });
        }
    }
    made
}

fn load(text: &str) -> (Vec<Grid>, Vec<Table>) {
    let mut numbers = text.lines();
    let (mut grids, mut tables) = (Vec::new(), Vec::new());
    while let Some(head) = numbers.next() {
        let words: Vec<&str> = head.split(' ').collect();
        let rows: usize = words[2].parse().unwrap();
        let mut cells = Vec::new();
        for _ in 0..rows {
            cells.extend(numbers.next().unwrap().split(' ').map(|it| it.parse::<i64>().unwrap()));
        }
        match words[0] {
            "g" => grids.push(cells),
            _ => tables.push(cells.chunks(3).map(|it| [it[0], it[1], it[2]]).collect()),
        }
    }
    (grids, tables)
}

fn print(out: &mut String, name: &str, part: usize, width: usize, cells: &[i64]) {
    writeln!(out, "{name} {part} {} {width}", cells.len() / width).unwrap();
    for row in cells.chunks(width) {
        let words: Vec<String> = row.iter().map(i64::to_string).collect();
        writeln!(out, "{}", words.join(" ")).unwrap();
    }
}

fn main() {
    let words: Vec<String> = std::env::args().collect();
    let turns: u64 = words[1].parse().unwrap();
    let (mut grids, tables) = load(&std::fs::read_to_string(&words[2]).unwrap());
    let mut norm = 0;
    for turn in 1..=turns {
        let mut next = Vec::with_capacity(PARTS);
        for part in 0..PARTS {
            let (above, below) = (&grids[(part + PARTS - 1) % PARTS], &grids[(part + 1) % PARTS]);
            next.push(stencil(above, &grids[part], below, 4, 8));
        }
        for part in 0..PARTS {
            grids[part] = next[part].clone();
        }
        if turn % 10 == 0 {
            let sums: Vec<i64> = grids.iter().map(|it| it.iter().fold(0, |sum: i64, x| sum.wrapping_add(*x))).collect();
            norm = sums.iter().fold(0, |sum: i64, x| sum.wrapping_add(*x));
        }
    }
    let mut merged: BTreeMap<i64, i64> = BTreeMap::new();
    for table in &tables {
        let mut sums: BTreeMap<i64, i64> = BTreeMap::new();
        for row in table {
            let sum = sums.entry(row[0]).or_insert(0);
            *sum = sum.wrapping_add(row[2]);
        }
        for (key, amount) in sums.iter().take(16) {
            let sum = merged.entry(*key).or_insert(0);
            *sum = sum.wrapping_add(*amount);
        }
    }
    let mut out = String::new();
    for (part, grid) in grids.iter().enumerate() {
        print(&mut out, "g", part, SIDE, grid);
    }
    print(&mut out, "z", 0, 1, &[norm]);
    let rows: Vec<i64> = merged.iter().take(16).flat_map(|(key, sum)| [*key, *sum]).collect();
    print(&mut out, "m", 0, 2, &rows);
    std::io::Write::write_all(&mut std::io::stdout(), out.as_bytes()).unwrap();
}
