// What bench/patch.sh measures, in plain Rust: which preconditions of a template fail, and the copies that mend them.
use std::hint::black_box;
use std::time::Instant;

const WORKERS: u16 = 8;
const OBJECTS: u16 = 512;

struct Map {
    held: Vec<Option<u64>>,
    latest: Vec<u64>,
}

impl Map {
    fn is_current(&self, worker: u16, object: u16) -> bool {
        let object = usize::from(object);
        self.held[usize::from(worker) * usize::from(OBJECTS) + object] == Some(self.latest[object])
    }

    fn holder(&self, object: u16) -> Option<u16> {
        (0..WORKERS).find(|worker| self.is_current(*worker, object))
    }

    fn fill(&mut self, worker: u16, version: u64) {
        for object in 0..usize::from(OBJECTS) {
            self.held[usize::from(worker) * usize::from(OBJECTS) + object] = Some(version);
            self.latest[object] = self.latest[object].max(version);
        }
    }
}

fn failing(needs: &[(u16, u16)], map: &Map, flags: &mut [bool]) -> usize {
    let mut count = 0;
    for (flag, &(worker, object)) in flags.iter_mut().zip(needs) {
        *flag = !map.is_current(worker, object);
        count += usize::from(*flag);
    }
    count
}

fn build(needs: &[(u16, u16)], map: &Map, flags: &[bool]) -> Vec<(u16, u16, u16)> {
    let failed = needs.iter().zip(flags).filter(|(_, flag)| **flag);
    failed.filter_map(|(&(to, object), _)| map.holder(object).map(|from| (from, to, object))).collect()
}

fn measure(name: &str, needs: &[(u16, u16)], map: &Map, turns: u64) {
    let mut flags = vec![false; needs.len()];
    let count = u128::from(turns) * needs.len() as u128;
    let mut failed = 0;
    let start = Instant::now();
    for _ in 0..turns {
        failed += failing(black_box(needs), map, &mut flags);
    }
    let flagging = 1000 * start.elapsed().as_nanos() / count;
    let mut copies = 0;
    let start = Instant::now();
    for _ in 0..turns {
        copies += black_box(build(black_box(needs), map, &flags)).len();
    }
    let mending = 1000 * start.elapsed().as_nanos() / count;
    let times = format!("{flagging} ps to flag one, {mending} ps to mend one");
    println!("{} of {name}: {times}, {failed} failed, {copies} copies", needs.len());
}

// The arguments are how many preconditions, and how often.
fn main() {
    let words: Vec<u64> = std::env::args().skip(1).map(|word| word.parse().unwrap()).collect();
    let (count, turns) = (words[0], words[1]);
    let needs: Vec<(u16, u16)> = (0..count).map(|at| ((at % 8) as u16, (at / 8) as u16)).collect();
    let mut map = Map { held: vec![None; usize::from(WORKERS * OBJECTS)], latest: vec![0; usize::from(OBJECTS)] };
    (0..WORKERS).for_each(|worker| map.fill(worker, 1));
    measure("which all hold", &needs, &map, turns);
    map.fill(0, 2);
    measure("which most fail", &needs, &map, turns);
}
