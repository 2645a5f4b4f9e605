// The queue of bench/queue.sh in plain Rust: each waiting command has the number of its waits that aren't complete and
// those that wait for it, and each slot its last writer and the readers since.
use std::collections::{BTreeSet, HashMap, HashSet};
use std::hint::black_box;
use std::time::Instant;

struct Command {
    id: u32,
    reads: Vec<u16>,
    writes: Vec<u16>,
    before: Vec<u32>,
}

struct Waiting {
    command: Command,
    open: usize,
    followers: Vec<u64>,
}

#[derive(Default)]
struct SlotUse {
    writer: Option<u64>,
    readers: BTreeSet<u64>,
}

#[derive(Default)]
struct Queue {
    waiting: HashMap<u64, Waiting>,
    slots: HashMap<u16, SlotUse>,
    released: BTreeSet<u64>,
    given: u64,
}

impl Queue {
    fn admit(&mut self, group: Vec<Command>) {
        let first = self.given;
        let mut named: HashMap<u32, Vec<u64>> = HashMap::new();
        let mut written: HashSet<u16> = HashSet::new();
        let mut waits = Vec::with_capacity(group.len());
        for (command, ticket) in group.iter().zip(first..) {
            waits.push(self.waits_of(command, &named, &written));
            named.entry(command.id).or_default().push(ticket);
            written.extend(&command.writes);
        }
        for (command, waits) in group.into_iter().zip(waits) {
            self.join(command, waits);
        }
    }

    fn waits_of(&self, command: &Command, named: &HashMap<u32, Vec<u64>>, written: &HashSet<u16>) -> BTreeSet<u64> {
        let mut waits: BTreeSet<u64> = BTreeSet::new();
        for number in &command.before {
            waits.extend(named.get(number).into_iter().flatten());
        }
        for slot in command.reads.iter().filter(|slot| !written.contains(slot)) {
            waits.extend(self.slots.get(slot).and_then(|used| used.writer));
        }
        for slot in command.writes.iter().filter(|slot| !written.contains(slot)) {
            if let Some(used) = self.slots.get(slot) {
                waits.extend(used.writer);
                waits.extend(&used.readers);
            }
        }
        waits
    }

    fn join(&mut self, command: Command, waits: BTreeSet<u64>) {
        let ticket = self.given;
        self.given += 1;
        for earlier in &waits {
            self.waiting.get_mut(earlier).unwrap().followers.push(ticket);
        }
        for slot in &command.writes {
            let used = self.slots.entry(*slot).or_default();
            used.writer = Some(ticket);
            used.readers.clear();
        }
        for slot in &command.reads {
            self.slots.entry(*slot).or_default().readers.insert(ticket);
        }
        if waits.is_empty() {
            self.released.insert(ticket);
        }
        let open = waits.len();
        self.waiting.insert(ticket, Waiting { command, open, followers: Vec::new() });
    }

    fn ready(&self, after: Option<u64>) -> Option<u64> {
        let from = after.map_or(0, |ticket| ticket + 1);
        self.released.range(from..).next().copied()
    }

    fn complete(&mut self, ticket: u64) {
        let Some(done) = self.waiting.remove(&ticket) else { return };
        self.released.remove(&ticket);
        for slot in done.command.reads.iter().chain(&done.command.writes) {
            if let Some(used) = self.slots.get_mut(slot) {
                used.readers.remove(&ticket);
                used.writer = used.writer.filter(|writer| *writer != ticket);
                if used.writer.is_none() && used.readers.is_empty() {
                    self.slots.remove(slot);
                }
            }
        }
        for follower in done.followers {
            if let Some(waiting) = self.waiting.get_mut(&follower) {
                waiting.open -= 1;
                if waiting.open == 0 {
                    self.released.insert(follower);
                }
            }
        }
    }
}

fn filled(number: u64, slots: u64) -> Command {
    let slot = (number % slots) as u16;
    Command { id: number as u32, reads: Vec::new(), writes: vec![slot], before: Vec::new() }
}

// The arguments are how many wait at once, how many slots they write, and how many go through.
fn main() {
    let words: Vec<u64> = std::env::args().skip(1).map(|word| word.parse().unwrap()).collect();
    let (waiting, slots, turns) = (words[0], words[1], words[2]);
    let mut queue = Queue::default();
    for number in 0..waiting {
        queue.admit(vec![filled(number, slots)]);
    }
    let start = Instant::now();
    for number in waiting..waiting + turns {
        let ticket = queue.ready(None).unwrap();
        queue.complete(black_box(ticket));
        queue.admit(vec![filled(number, slots)]);
    }
    println!("{waiting} wait, {turns} in {} us", start.elapsed().as_micros());
}
