// Reads a file of parts as a careful plain program would: headers and rows of numbers, each row's width tested.
use std::io::Read;
fn main() {
    let name = std::env::args().nth(1).unwrap();
    let mut bytes = Vec::new();
    std::fs::File::open(name).unwrap().read_to_end(&mut bytes).unwrap();
    let text = std::str::from_utf8(&bytes).unwrap();
    let mut parts: Vec<(String, u32, usize, Vec<i64>)> = Vec::new();
    let mut left = 0usize;
    for line in text.lines() {
        if left == 0 {
            let mut words = line.split_whitespace();
            let name = words.next().unwrap().to_string();
            let part: u32 = words.next().unwrap().parse().unwrap();
            let rows: usize = words.next().unwrap().parse().unwrap();
            let width: usize = words.next().unwrap().parse().unwrap();
            left = rows;
            parts.push((name, part, width, Vec::new()));
        } else {
            let last = parts.last_mut().unwrap();
            let mut n = 0;
            for word in line.split_whitespace() {
                last.3.push(word.parse().unwrap());
                n += 1;
            }
            assert!(n == last.2);
            left -= 1;
        }
    }
    println!("{} {}", parts.len(), parts.iter().map(|p| p.3.iter().sum::<i64>()).sum::<i64>());
}
