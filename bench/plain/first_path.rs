// The loop of bench/first_path.sh in plain Rust: a task makes a new part from the old one.
use std::io::Write;

fn main() {
    let (parts, width, rows, turns) = (64usize, 32usize, 32usize, 1_000u32);
    let mut values: Vec<Vec<i64>> = (0..parts).map(|_| vec![3; width * rows]).collect();
    for _ in 0..turns {
        for part in values.iter_mut() {
            let next: Vec<i64> = part.iter().map(|cell| cell.wrapping_add(1)).collect();
            *part = next;
        }
    }
    let mut text = Vec::new();
    for (part, cells) in values.iter().enumerate() {
        writeln!(text, "a {part} {rows} {width}").unwrap();
        for row in cells.chunks(width) {
            let words: Vec<String> = row.iter().map(|cell| cell.to_string()).collect();
            writeln!(text, "{}", words.join(" ")).unwrap();
        }
    }
    std::io::stdout().write_all(&text).unwrap();
}
