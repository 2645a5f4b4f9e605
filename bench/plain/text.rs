// The reader of bench/text.sh in plain Rust: a driver and its data into a job, in one pass a file. It stops at the first
// line that it can't take, without the number of a rule. Prints how many statements stand outermost, and a sum of cells.
#![allow(dead_code)] // the job is only made

use std::collections::HashMap;

struct Var {
    parts: u64,
    width: u64,
    rows: u64,
    init: Init,
}

enum Init {
    Fill(i64),
    Iota,
    Loaded(Vec<Vec<i64>>),
}

enum Place {
    Fixed(u64),
    Plus(u64),
    Minus(u64),
}

struct Ref {
    var: u8,
    place: Place,
}

enum Atom {
    Const(i64),
    Named(u8),
}

struct Stage {
    func: usize,
    reads: Vec<Ref>,
    writes: Vec<Ref>,
    params: Vec<Atom>,
    each: bool,
}

struct Block {
    args: usize,
    stages: Vec<Stage>,
}

struct Cond {
    left: Atom,
    compare: Option<(String, Atom)>,
}

enum Stmt {
    Do(u8, Vec<Atom>),
    Let(u8, Atom, Option<(u8, Atom)>),
    Get(u8, u8, u64, u64, u64),
    Loop(Atom, Vec<Stmt>),
    While(Cond, Vec<Stmt>),
    If(Cond, Vec<Stmt>, Vec<Stmt>),
    Checkpoint,
    Output(u8),
}

#[derive(Default)]
struct Job {
    steps: u64,
    vars: Vec<Var>,
    blocks: Vec<Block>,
    body: Vec<Stmt>,
}

// The functions: their names, parameters, fewest and most reads, and writes.
const FUNCTIONS: [(&str, usize, usize, usize, usize); 15] = [
    ("set", 1, 0, 0, 1),
    ("copy", 0, 1, 1, 1),
    ("addc", 1, 1, 1, 1),
    ("mulc", 1, 1, 1, 1),
    ("add", 0, 2, 2, 1),
    ("sub", 0, 2, 2, 1),
    ("max", 0, 2, 2, 1),
    ("sum", 0, 1, 8, 1),
    ("total", 0, 1, 8, 1),
    ("count", 0, 1, 8, 1),
    ("stencil", 2, 3, 3, 1),
    ("keep", 3, 1, 1, 1),
    ("group", 2, 1, 1, 1),
    ("merge", 0, 1, 8, 1),
    ("split", 2, 1, 1, 2),
];

const RESERVED: [&str; 17] = [
    "nimbus", "steps", "var", "block", "end", "else", "do", "let", "get", "loop", "while", "if", "checkpoint", "output",
    "with", "each", "i",
];

// The tokens of a line.
fn tokens(line: &str) -> Option<Vec<&str>> {
    let (bytes, mut at, mut found) = (line.as_bytes(), 0, Vec::new());
    while at < bytes.len() {
        let from = at;
        let run = |test: fn(&u8) -> bool| bytes[from..].iter().take_while(|b| test(b)).count();
        at += match bytes[at] {
            b'#' => break,
            b' ' | b'\t' | b'\r' => 1,
            b'a'..=b'z' | b'A'..=b'Z' => run(|b| b.is_ascii_alphanumeric() || *b == b'_'),
            b'0'..=b'9' => run(u8::is_ascii_digit),
            _ => ["->", "<=", ">=", "!=", "[", "]", "(", ")", ",", "+", "-", "*", "/", "%", "=", "<", ">"]
                .iter()
                .find(|sign| line[from..].starts_with(**sign))?
                .len(),
        };
        let text = &line[from..at];
        if !text.starts_with([' ', '\t', '\r']) {
            if text.as_bytes()[0].is_ascii_alphabetic() && text.len() > 16 {
                return None;
            }
            found.push(text);
        }
    }
    Some(found)
}

struct Words<'a> {
    words: Vec<&'a str>,
    at: usize,
}

impl<'a> Words<'a> {
    fn peek(&self) -> &'a str {
        self.words.get(self.at).copied().unwrap_or("")
    }

    fn next(&mut self) -> Option<&'a str> {
        self.at += 1;
        self.words.get(self.at - 1).copied()
    }

    fn eat(&mut self, word: &str) -> bool {
        let here = self.peek() == word;
        self.at += usize::from(here);
        here
    }

    fn expect(&mut self, word: &str) -> Option<()> {
        self.eat(word).then_some(())
    }

    fn done(&self) -> Option<()> {
        (self.at == self.words.len()).then_some(())
    }

    fn name(&mut self) -> Option<&'a str> {
        self.next().filter(|word| word.as_bytes()[0].is_ascii_alphabetic())
    }

    fn number(&mut self) -> Option<u64> {
        self.next()?.parse().ok().filter(|n| *n <= 1 << 63)
    }

    fn int(&mut self) -> Option<i64> {
        let negative = self.eat("-");
        let number = self.number()? as i128;
        i64::try_from(if negative { -number } else { number }).ok()
    }

    fn atom(&mut self, names: &HashMap<String, u8>) -> Option<Atom> {
        if self.peek().starts_with(|c: char| c.is_ascii_alphabetic()) {
            Some(Atom::Named(*names.get(self.next()?)?))
        } else {
            Some(Atom::Const(self.int()?))
        }
    }
}

#[derive(Default)]
struct Reader {
    job: Job,
    vars: HashMap<String, u8>,
    blocks: HashMap<String, u8>,
    args: HashMap<String, u8>,
    scalars: HashMap<String, u8>,
    in_block: bool,
    tasks: u64,
    bodies: Vec<Vec<Stmt>>,
    heads: Vec<Stmt>,
}

impl Reader {
    fn fresh(&self, name: &str) -> Option<()> {
        (!RESERVED.contains(&name) && !self.vars.contains_key(name) && !self.blocks.contains_key(name)).then_some(())
    }

    fn var(&mut self, w: &mut Words) -> Option<()> {
        let name = w.name()?;
        w.expect("parts")?;
        let parts = w.number()?;
        w.expect("width")?;
        let width = w.number()?;
        w.expect("rows")?;
        let rows = w.number()?;
        let init = match w.next()? {
            "fill" => Init::Fill(w.int()?),
            "iota" => Init::Iota,
            "load" => Init::Loaded(Vec::new()),
            _ => return None,
        };
        w.done()?;
        self.fresh(name)?;
        let fits = |most: u64, n: u64| (1..=most).contains(&n);
        if !fits(64, parts) || !fits(65_536, width) || !fits(65_536, rows) || width * rows > 65_536 {
            return None;
        }
        self.vars.insert(name.to_string(), self.job.vars.len() as u8);
        self.job.vars.push(Var { parts, width, rows, init });
        let sum = |of: fn(&Var) -> u64| self.job.vars.iter().map(of).sum::<u64>();
        (self.job.vars.len() <= 32 && sum(|v| v.parts) <= 512 && sum(|v| v.parts * v.width * v.rows) <= 1_048_576).then_some(())
    }

    fn head(&mut self, w: &mut Words) -> Option<()> {
        let name = w.name()?;
        self.fresh(name)?;
        self.args.clear();
        w.expect("(")?;
        while !w.eat(")") {
            if !self.args.is_empty() {
                w.expect(",")?;
            }
            let arg = w.name()?;
            let number = self.args.len() as u8;
            if RESERVED.contains(&arg) || self.args.insert(arg.to_string(), number).is_some() {
                return None;
            }
        }
        w.done()?;
        self.blocks.insert(name.to_string(), self.job.blocks.len() as u8);
        self.job.blocks.push(Block { args: self.args.len(), stages: Vec::new() });
        (self.in_block, self.tasks) = (true, 0);
        (self.job.blocks.len() <= 32 && self.args.len() <= 8).then_some(())
    }

    fn reference(&self, w: &mut Words) -> Option<Ref> {
        let var = *self.vars.get(w.name()?)?;
        w.expect("[")?;
        let place = if !w.eat("i") {
            Place::Fixed(w.number()?)
        } else if w.eat("+") {
            Place::Plus(w.number()?)
        } else if w.eat("-") {
            Place::Minus(w.number()?)
        } else {
            Place::Plus(0)
        };
        w.expect("]")?;
        Some(Ref { var, place })
    }

    fn object(&self, reference: &Ref, task: u64) -> (u8, u64) {
        let parts = self.job.vars[usize::from(reference.var)].parts;
        let part = match reference.place {
            Place::Fixed(n) => n % parts,
            Place::Plus(n) => (task + n % parts) % parts,
            Place::Minus(n) => (task + parts - n % parts) % parts,
        };
        (reference.var, part)
    }

    fn stage(&mut self, w: &mut Words) -> Option<()> {
        let name = w.name()?;
        let func = FUNCTIONS.iter().position(|f| f.0 == name)?;
        let (mut reads, mut params) = (Vec::new(), Vec::new());
        while !w.eat("->") {
            reads.push(self.reference(w)?);
        }
        let mut writes = vec![self.reference(w)?];
        while w.at < w.words.len() && w.peek() != "with" && w.peek() != "each" {
            writes.push(self.reference(w)?);
        }
        if w.eat("with") {
            while w.at < w.words.len() && w.peek() != "each" {
                params.push(w.atom(&self.args)?);
            }
        }
        let each = w.eat("each");
        if each {
            w.expect("i")?;
        }
        w.done()?;
        let (_, numbers, fewest, most, results) = FUNCTIONS[func];
        if params.len() != numbers || reads.len() < fewest || reads.len() > most || writes.len() != results {
            return None;
        }
        let own = |r: &Ref| !matches!(r.place, Place::Fixed(_));
        if !each && reads.iter().chain(&writes).any(own) {
            return None;
        }
        let turns = if each { self.job.vars[usize::from(writes[0].var)].parts } else { 1 };
        if (0..turns).any(|task| writes.len() == 2 && self.object(&writes[0], task) == self.object(&writes[1], task)) {
            return None;
        }
        self.tasks += turns;
        self.job.blocks.last_mut()?.stages.push(Stage { func, reads, writes, params, each });
        (self.tasks <= 1024).then_some(())
    }

    fn scalar(&mut self, name: &str) -> Option<u8> {
        if RESERVED.contains(&name) {
            return None;
        }
        let next = self.scalars.len() as u8;
        let number = *self.scalars.entry(name.to_string()).or_insert(next);
        (number < 64).then_some(number)
    }

    fn cond(&self, w: &mut Words) -> Option<Cond> {
        let left = w.atom(&self.scalars)?;
        let compare = match w.next() {
            None => None,
            Some(sign) if ["<", "<=", "=", "!=", ">", ">="].contains(&sign) => Some((sign.to_string(), w.atom(&self.scalars)?)),
            Some(_) => return None,
        };
        w.done()?;
        Some(Cond { left, compare })
    }

    fn open(&mut self, head: Stmt) -> Option<()> {
        self.heads.push(head);
        self.bodies.push(Vec::new());
        (self.heads.len() <= 16).then_some(())
    }

    fn close(&mut self) -> Option<()> {
        let body = self.bodies.pop()?;
        let stmt = match self.heads.pop()? {
            Stmt::Loop(turns, _) => Stmt::Loop(turns, body),
            Stmt::While(cond, _) => Stmt::While(cond, body),
            Stmt::If(cond, first, _) if first.is_empty() => Stmt::If(cond, body, Vec::new()),
            Stmt::If(cond, first, _) => Stmt::If(cond, first, body),
            _ => return None,
        };
        self.push(stmt);
        Some(())
    }

    fn push(&mut self, stmt: Stmt) {
        self.bodies.last_mut().unwrap_or(&mut self.job.body).push(stmt);
    }

    fn statement(&mut self, w: &mut Words) -> Option<()> {
        let stmt = match w.name()? {
            "do" => {
                let block = *self.blocks.get(w.name()?)?;
                let mut args = Vec::new();
                w.expect("(")?;
                while !w.eat(")") {
                    if !args.is_empty() {
                        w.expect(",")?;
                    }
                    args.push(w.atom(&self.scalars)?);
                }
                if args.len() != self.job.blocks[usize::from(block)].args {
                    return None;
                }
                Stmt::Do(block, args)
            }
            "let" => {
                let name = w.name()?;
                w.expect("=")?;
                let first = w.atom(&self.scalars)?;
                let rest = match w.next() {
                    None => None,
                    Some(sign) if ["+", "-", "*", "/", "%"].contains(&sign) => Some((sign.as_bytes()[0], w.atom(&self.scalars)?)),
                    Some(_) => return None,
                };
                w.at = w.at.min(w.words.len());
                Stmt::Let(self.scalar(name)?, first, rest)
            }
            "get" => {
                let name = w.name()?;
                w.expect("=")?;
                let var = *self.vars.get(w.name()?)?;
                w.expect("[")?;
                let part = w.number()?;
                w.expect("]")?;
                let (row, cell) = (w.number()?, w.number()?);
                Stmt::Get(self.scalar(name)?, var, part, row, cell)
            }
            "loop" => {
                let turns = w.atom(&self.scalars)?;
                w.done()?;
                return self.open(Stmt::Loop(turns, Vec::new()));
            }
            "while" => {
                let cond = self.cond(w)?;
                return self.open(Stmt::While(cond, Vec::new()));
            }
            "if" => {
                let cond = self.cond(w)?;
                return self.open(Stmt::If(cond, Vec::new(), Vec::new()));
            }
            "else" => {
                w.done()?;
                let Some(Stmt::If(_, first, _)) = self.heads.last_mut() else { return None };
                std::mem::swap(first, self.bodies.last_mut()?);
                return Some(());
            }
            "end" => {
                w.done()?;
                return self.close();
            }
            "checkpoint" => Stmt::Checkpoint,
            "output" => Stmt::Output(*self.vars.get(w.name()?)?),
            _ => return None,
        };
        w.done()?;
        self.push(stmt);
        Some(())
    }

    fn line(&mut self, words: Vec<&str>) -> Option<()> {
        let mut w = Words { words, at: 0 };
        if self.in_block {
            if w.words == ["end"] {
                self.in_block = false;
                return Some(());
            }
            return self.stage(&mut w);
        }
        match w.peek() {
            "steps" => {
                w.at = 1;
                self.job.steps = w.number()?;
                w.done()
            }
            "var" => {
                w.at = 1;
                self.var(&mut w)
            }
            "block" => {
                w.at = 1;
                self.head(&mut w)
            }
            _ => self.statement(&mut w),
        }
    }
}

fn driver(text: &str) -> Option<(Job, HashMap<String, u8>)> {
    let mut reader = Reader::default();
    let mut lines = text.lines().map(tokens);
    if lines.next()?? != ["nimbus", "1"] {
        return None;
    }
    for words in lines {
        let words = words?;
        if !words.is_empty() {
            reader.line(words)?;
        }
    }
    (!reader.in_block && reader.heads.is_empty()).then_some((reader.job, reader.vars))
}

fn load(job: &mut Job, names: &HashMap<String, u8>, text: &str) -> Option<()> {
    let mut lines = text.lines().filter(|line| !line.trim().is_empty());
    for var in 0..job.vars.len() {
        for part in 0..job.vars[var].parts {
            let shape = (job.vars[var].rows, job.vars[var].width);
            let Init::Loaded(parts) = &mut job.vars[var].init else { break };
            let header: Vec<&str> = lines.next()?.split_ascii_whitespace().collect();
            let [name, number, rows, width] = header[..] else { return None };
            let (number, rows, width): (u64, u64, u64) = (number.parse().ok()?, rows.parse().ok()?, width.parse().ok()?);
            if names.get(name) != Some(&(var as u8)) || number != part || rows > shape.0 || width != shape.1 {
                return None;
            }
            let mut cells = Vec::with_capacity((rows * width) as usize);
            for _ in 0..rows {
                let before = cells.len();
                for word in lines.next()?.split_ascii_whitespace() {
                    cells.push(word.parse().ok()?);
                }
                if cells.len() != before + width as usize {
                    return None;
                }
            }
            parts.push(cells);
        }
    }
    lines.next().is_none().then_some(())
}

fn main() {
    let mut files = std::env::args().skip(1).map(|name| std::fs::read_to_string(name).expect("a file that is there"));
    let (mut job, names) = driver(&files.next().expect("a driver")).expect("a driver that is taken");
    load(&mut job, &names, &files.next().expect("a data file")).expect("data that are taken");
    let mut sum = 0i64;
    for var in &job.vars {
        if let Init::Loaded(parts) = &var.init {
            sum = parts.iter().flatten().fold(sum, |sum, cell| sum.wrapping_add(*cell));
        }
    }
    println!("{} {sum}", job.body.len());
}
