// What bench/templates.sh and bench/edits.sh measure, in plain Rust: the tasks of a block scheduled on 8 workers, the
// block built once for all its instances, and one of its tasks moved to another worker.
use std::hint::black_box;
use std::time::Instant;

const WORKERS: u16 = 8;

struct Task {
    reads: Vec<u16>,
    writes: Vec<u16>,
}

// Which version each worker's main slots hold, and the latest of each object.
struct Map {
    objects: usize,
    held: Vec<Option<u64>>,
    latest: Vec<u64>,
}

impl Map {
    fn new(objects: usize) -> Map {
        Map { objects, held: vec![None; objects * usize::from(WORKERS)], latest: vec![0; objects] }
    }

    fn place(&self, worker: u16, object: u16) -> usize {
        usize::from(worker) * self.objects + usize::from(object)
    }

    fn is_current(&self, worker: u16, object: u16) -> bool {
        self.held[self.place(worker, object)] == Some(self.latest[usize::from(object)])
    }

    fn holder(&self, object: u16) -> Option<u16> {
        (0..WORKERS).find(|worker| self.is_current(*worker, object))
    }

    fn put(&mut self, worker: u16, object: u16, version: u64) {
        let place = self.place(worker, object);
        self.held[place] = Some(version);
        let latest = &mut self.latest[usize::from(object)];
        *latest = version.max(*latest);
    }
}

#[derive(Clone)]
#[allow(dead_code)] // what is sent on is not read here
enum Kind {
    Send { slot: u16, peer: u16, entry: u32 },
    Receive { slot: u16, version: u64 },
    Copy { from: u16, to: u16 },
    Run { reads: Vec<u16>, writes: Vec<u16> },
}

impl Kind {
    fn reads(&self) -> &[u16] {
        match self {
            Kind::Send { slot, .. } => std::slice::from_ref(slot),
            Kind::Copy { from, .. } => std::slice::from_ref(from),
            Kind::Run { reads, .. } => reads,
            Kind::Receive { .. } => &[],
        }
    }

    fn writes(&self) -> &[u16] {
        match self {
            Kind::Receive { slot, .. } => std::slice::from_ref(slot),
            Kind::Copy { to, .. } => std::slice::from_ref(to),
            Kind::Run { writes, .. } => writes,
            Kind::Send { .. } => &[],
        }
    }
}

#[derive(Clone)]
struct Entry {
    id: u32,
    kind: Kind,
    before: Vec<u32>,
}

fn number(task: usize, phase: u32, index: usize) -> u32 {
    64 * task as u32 + 8 * phase + index as u32
}

fn home(task: &Task) -> u16 {
    task.writes[0] % WORKERS
}

// The commands that a task needs, each with its worker.
fn schedule(map: &mut Map, task: &Task, at: usize, position: u64) -> Vec<(u16, Entry)> {
    let owner = home(task);
    let mut commands = Vec::new();
    let mut before = Vec::new();
    for (index, &object) in task.reads.iter().enumerate() {
        if task.reads[..index].contains(&object) || map.is_current(owner, object) {
            continue;
        }
        let Some(from) = map.holder(object) else { continue };
        let entry = number(at, 1, index);
        let send = Kind::Send { slot: object, peer: owner, entry };
        commands.push((from, Entry { id: number(at, 0, index), kind: send, before: Vec::new() }));
        let receive = Kind::Receive { slot: object, version: map.latest[usize::from(object)] };
        commands.push((owner, Entry { id: entry, kind: receive, before: Vec::new() }));
        before.push(entry);
    }
    let run = Kind::Run { reads: task.reads.clone(), writes: task.writes.clone() };
    commands.push((owner, Entry { id: number(at, 4, 0), kind: run, before }));
    for (worker, command) in &commands {
        match &command.kind {
            Kind::Receive { slot, version } => map.put(*worker, *slot, *version),
            Kind::Run { writes, .. } => writes.iter().for_each(|object| map.put(*worker, *object, position + 1)),
            _ => {}
        }
    }
    commands
}

#[derive(Clone, Default)]
struct SlotUse {
    writer: Option<u32>,
    readers: Vec<u32>,
}

// Entries with the before sets of the rule, by the last writer of each slot and its readers since.
fn by_rule(entries: &mut [Entry]) {
    let touched = entries.iter().flat_map(|entry| entry.kind.reads().iter().chain(entry.kind.writes()));
    let count = touched.max().map_or(0, |slot| usize::from(*slot) + 1);
    let mut slots: Vec<SlotUse> = vec![SlotUse::default(); count];
    let mut met: Vec<u32> = Vec::new();
    let ids: Vec<u32> = entries.iter().map(|entry| entry.id).collect();
    for (place, entry) in entries.iter_mut().enumerate() {
        met.clear();
        for slot in entry.kind.reads().iter().chain(entry.kind.writes()) {
            met.extend(slots[usize::from(*slot)].writer);
        }
        for slot in entry.kind.writes() {
            met.extend(&slots[usize::from(*slot)].readers);
        }
        met.sort_unstable();
        met.dedup();
        for slot in entry.kind.writes() {
            let used = &mut slots[usize::from(*slot)];
            used.writer = Some(place as u32);
            used.readers.clear();
        }
        for slot in entry.kind.reads() {
            slots[usize::from(*slot)].readers.push(place as u32);
        }
        entry.before = met.iter().map(|place| ids[*place as usize]).collect();
    }
}

struct Template {
    halves: Vec<Vec<Entry>>,
    built: Vec<Vec<Entry>>,
    preconditions: Vec<(u16, u16)>,
    effect: Vec<(u16, u16, u64)>,
    homes: Vec<u16>,
    owners: Vec<u16>,
}

fn build(tasks: &[Task], objects: usize) -> Template {
    let mut offsets = Map::new(objects);
    let mut needed = Map::new(objects);
    let mut halves: Vec<Vec<Entry>> = vec![Vec::new(); usize::from(WORKERS)];
    for (at, task) in tasks.iter().enumerate() {
        let owner = home(task);
        for &object in &task.reads {
            if offsets.latest[usize::from(object)] == 0 {
                offsets.put(owner, object, 0);
                needed.put(owner, object, 0);
            }
        }
        for (worker, entry) in schedule(&mut offsets, task, at, at as u64) {
            halves[usize::from(worker)].push(entry);
        }
    }
    let mut preconditions = Vec::new();
    let mut effect = Vec::new();
    for worker in 0..WORKERS {
        for object in 0..objects as u16 {
            if needed.is_current(worker, object) {
                preconditions.push((worker, object));
            }
        }
    }
    let mut copies = 65_536;
    for &(to, object) in &preconditions {
        if offsets.is_current(to, object) {
            continue;
        }
        let Some(from) = offsets.holder(object) else { continue };
        let version = offsets.latest[usize::from(object)];
        let send = Kind::Send { slot: object, peer: to, entry: copies };
        halves[usize::from(from)].push(Entry { id: copies, kind: send, before: Vec::new() });
        let receive = Kind::Receive { slot: object, version };
        halves[usize::from(to)].push(Entry { id: copies, kind: receive, before: Vec::new() });
        offsets.put(to, object, version);
        copies += 1;
    }
    for half in &mut halves {
        by_rule(half);
    }
    for worker in 0..WORKERS {
        for object in 0..objects as u16 {
            if let Some(offset) = offsets.held[offsets.place(worker, object)].filter(|offset| *offset != 0) {
                effect.push((worker, object, offset));
            }
        }
    }
    let homes: Vec<u16> = tasks.iter().map(home).collect();
    Template { built: halves.clone(), halves, preconditions, effect, owners: homes.clone(), homes }
}

// The offset of a slot's last content before a number.
fn last_before(half: &[Entry], number: u32, slot: u16) -> Option<u64> {
    let before = half.partition_point(|entry| entry.id < number);
    half[..before].iter().rev().find_map(|entry| match &entry.kind {
        Kind::Receive { slot: to, version } if *to == slot => Some(*version),
        Kind::Run { writes, .. } if writes.contains(&slot) => Some(u64::from(entry.id / 64 + 1)),
        _ => None,
    })
}

// A task that runs at its home moves to another worker: both halves change, and get their before sets anew.
fn migrate(template: &mut Template, tasks: &[Task], at: usize, to: u16) {
    let task = &tasks[at];
    let from = template.owners[at];
    let moved_at = number(at, 2, 0);
    let mut away = Vec::new();
    let mut here = Vec::new();
    for (index, &object) in task.reads.iter().enumerate() {
        if task.reads[..index].contains(&object) {
            continue;
        }
        let last = tasks[..at].iter().rposition(|past| past.writes.contains(&object));
        let offset = last.map_or(0, |past| past as u64 + 1);
        let there = match last_before(&template.built[usize::from(to)], moved_at, object) {
            Some(last) => last == offset,
            None => offset == 0 && template.preconditions.contains(&(to, object)),
        };
        let entry = number(at, 3, index);
        if there {
            here.push(Entry { id: entry, kind: Kind::Copy { from: object, to: 512 + object }, before: Vec::new() });
        } else {
            let send = Kind::Send { slot: object, peer: to, entry };
            away.push(Entry { id: number(at, 2, index), kind: send, before: Vec::new() });
            let receive = Kind::Receive { slot: 512 + object, version: offset };
            here.push(Entry { id: entry, kind: receive, before: Vec::new() });
        }
    }
    let reads = task.reads.iter().map(|object| 512 + object).collect();
    let writes = task.writes.iter().map(|object| 512 + object).collect();
    here.push(Entry { id: number(at, 4, 0), kind: Kind::Run { reads, writes }, before: Vec::new() });
    for (index, &object) in task.writes.iter().enumerate() {
        let entry = number(at, 6, index);
        let send = Kind::Send { slot: 512 + object, peer: from, entry };
        here.push(Entry { id: number(at, 5, index), kind: send, before: Vec::new() });
        let receive = Kind::Receive { slot: object, version: at as u64 + 1 };
        away.push(Entry { id: entry, kind: receive, before: Vec::new() });
    }
    for (worker, more) in [(from, away), (to, here)] {
        let half = &mut template.halves[usize::from(worker)];
        half.retain(|entry| entry.id < moved_at || entry.id >= number(at, 7, 0));
        let place = half.partition_point(|entry| entry.id < moved_at);
        half.splice(place..place, more);
        by_rule(half);
    }
    template.owners[at] = to;
}

// Each task reads the object that it writes and both its neighbours.
fn tasks_of(count: usize, objects: usize) -> Vec<Task> {
    let at = |number: usize| (number % objects) as u16;
    let reads = |number| vec![at(number + objects - 1), at(number), at(number + 1)];
    (0..count).map(|number| Task { reads: reads(number), writes: vec![at(number)] }).collect()
}

fn schedule_often(tasks: &[Task], objects: usize, turns: u64) {
    let mut map = Map::new(objects);
    for object in 0..objects as u16 {
        map.put(object % WORKERS, object, 0);
    }
    let count = tasks.len();
    let mut given = 0;
    let start = Instant::now();
    for turn in 0..turns {
        for (at, task) in tasks.iter().enumerate() {
            given += black_box(schedule(&mut map, task, at, turn * count as u64 + at as u64)).len();
        }
    }
    println!("{} ns a task, {given}", start.elapsed().as_nanos() / (u128::from(turns) * count as u128));
}

fn build_often(tasks: &[Task], objects: usize, turns: u64) {
    let mut needs = 0;
    let start = Instant::now();
    for _ in 0..turns {
        needs += black_box(build(tasks, objects)).preconditions.len();
    }
    println!("{} ns a task, {needs}", start.elapsed().as_nanos() / (u128::from(turns) * tasks.len() as u128));
}

// Eight tasks, of a home each, move to the next worker, of a template that is built anew each time.
fn migrate_often(tasks: &[Task], objects: usize, turns: u64) {
    let mut nanos = 0;
    let mut entries = 0;
    for _ in 0..turns {
        let mut template = build(tasks, objects);
        let start = Instant::now();
        for at in 0..usize::from(WORKERS) {
            let to = (template.homes[at] + 1) % WORKERS;
            migrate(&mut template, tasks, at, to);
        }
        nanos += start.elapsed().as_nanos();
        entries += template.halves.iter().map(Vec::len).sum::<usize>() + black_box(template).effect.len();
    }
    println!("{} ns a move, {entries}", nanos / (u128::from(turns) * u128::from(WORKERS)));
}

// The arguments are what to measure, how many tasks, and how often.
fn main() {
    let words: Vec<String> = std::env::args().skip(1).collect();
    let (count, turns) = (words[1].parse().unwrap(), words[2].parse().unwrap());
    let objects = usize::min(count, 512);
    let tasks = tasks_of(count, objects);
    match words[0].as_str() {
        "schedule" => schedule_often(&tasks, objects, turns),
        "build" => build_often(&tasks, objects, turns),
        _ => migrate_often(&tasks, objects, turns),
    }
}
