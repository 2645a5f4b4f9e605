// A small interpreter in plain Rust of a tree of statements as `nimbus` has it, beside its machine: a loop of as many
// turns as the first word says, each with one `let`.
enum Atom {
    Const(i64),
    Scalar(usize),
}

enum Stmt {
    Let(usize, Atom, Option<Atom>),
    Loop(Atom, Vec<Stmt>),
}

struct Machine {
    scalars: Vec<i64>,
    count: u32,
    steps: u32,
}

impl Machine {
    fn atom(&self, atom: &Atom) -> i64 {
        match atom {
            Atom::Const(number) => *number,
            Atom::Scalar(scalar) => self.scalars[*scalar],
        }
    }

    fn passed(&mut self) -> bool {
        self.count += 1;
        self.count > self.steps
    }

    fn run(&mut self, body: &[Stmt]) -> bool {
        for stmt in body {
            if self.passed() {
                return false;
            }
            match stmt {
                Stmt::Let(scalar, first, rest) => {
                    let more = rest.as_ref().map_or(0, |it| self.atom(it));
                    self.scalars[*scalar] = self.atom(first).wrapping_add(more);
                }
                Stmt::Loop(turns, body) => {
                    for _ in 0..self.atom(turns) {
                        if !self.run(body) || self.passed() {
                            return false;
                        }
                    }
                }
            }
        }
        true
    }
}

fn main() {
    let turns: i64 = std::env::args().nth(1).unwrap().parse().unwrap();
    let body = vec![
        Stmt::Let(0, Atom::Const(0), None),
        Stmt::Loop(Atom::Const(turns), vec![Stmt::Let(0, Atom::Scalar(0), Some(Atom::Const(1)))]),
    ];
    let mut machine = Machine { scalars: vec![0], count: 0, steps: 1_000_000 };
    let ended = machine.run(&body);
    std::hint::black_box(&machine.scalars);
    std::process::exit(if ended { 0 } else { 4 });
}
