//! The whole walk in one call beside the Rust's own loop: `bench/walk` builds and runs it. Prints tables in Markdown.
//!
//! Before an input is timed, both sides must give the same record and lists, or the same refusal. The driver clears no buffers, on neither side:
//! the library zeroes the lists that it is lent, and the Rust makes new maps and drops them.
use std::collections::BTreeMap;
use std::fmt::Write;
use std::hint::black_box;
use std::time::Instant;
use std::{env, fs, mem};

use oracle::analysis::functions::walk::{Answer, Request};

#[path = "../ffi/rust/src/lib.rs"]
mod cugbejin;
use cugbejin::{Call, Function, Lists, Options, Pool, Refusal, Table};

const BASE: u32 = 0x0200_0000;
const ROUNDS: usize = 40;
const ROUND_NANOSECONDS: f64 = 2e6;

// ---- the library

/// The lists that the library is lent.
struct Lent {
    labels: Vec<u32>,
    pools: Vec<Pool>,
    jump_tables: Vec<Table>,
    inline_tables: Vec<Table>,
    calls: Vec<Call>,
}

impl Lent {
    /// So many rows for labels, pools and calls, and for tables.
    fn new(rows: usize, tables: usize) -> Self {
        Self {
            labels: vec![0; rows],
            pools: vec![Pool::default(); rows],
            jump_tables: vec![Table::default(); tables],
            inline_tables: vec![Table::default(); tables],
            calls: vec![Call::default(); rows],
        }
    }

    /// As many rows as a walk over this code can fill: one for each word.
    fn bounded(request: &Request) -> Self {
        let words = request.code.len() / 4;
        Self::new(words, words)
    }

    fn run(&mut self, request: &Request) -> Result<Function, Refusal> {
        let &Request { base, module_start, module_end, known_end, check, .. } = request;
        let options = Options { base, module_start, module_end, known_end, check };
        let Self { labels, pools, jump_tables, inline_tables, calls } = self;
        let mut lists = Lists { labels, pools, jump_tables, inline_tables, calls };
        cugbejin::run(options, request.start, &request.code, &request.existing_starts, &mut lists)
    }

    /// The answer and the lists in the words of the oracle.
    fn listing(&self, answer: Result<Function, Refusal>) -> String {
        let Function { start, end, first_instruction, last_instruction_end, saved_registers, counts } = match answer {
            Ok(function) => function,
            Err(Refusal { number, address, .. }) => return format!("refused {number} {address:08x}\n"),
        };
        let mut text = format!("function {start:08x} {end:08x} {first_instruction:08x} {last_instruction_end:08x} {saved_registers:02}\n");
        self.labels[..counts.labels].iter().for_each(|label| writeln!(text, "label {label:08x}").unwrap());
        for Pool { address, value, mark } in &self.pools[..counts.pools] {
            writeln!(text, "pool {address:08x} {value:08x} {}", ["other", "call"][*mark as usize]).unwrap();
        }
        for Table { address, size } in &self.jump_tables[..counts.jump_tables] {
            writeln!(text, "jump {address:08x} {size:08x}").unwrap();
        }
        for Table { address, size } in &self.inline_tables[..counts.inline_tables] {
            writeln!(text, "inline {address:08x} {size:08x}").unwrap();
        }
        for Call { address, word, destination, mode } in &self.calls[..counts.calls] {
            writeln!(text, "call {address:08x} {word:08x} {destination:08x} {}", ["arm", "thumb"][*mode as usize]).unwrap();
        }
        text
    }
}

// ---- inputs

/// Requests that are walked in turn, with the steps and the list entries of all.
struct Input {
    name: String,
    requests: Vec<Request>,
    steps: usize,
    entries: usize,
}

impl Input {
    /// Both sides must agree on each request.
    fn new(name: impl Into<String>, requests: Vec<Request>) -> Self {
        let (name, mut steps, mut entries) = (name.into(), 0, 0);
        for request in &requests {
            let walked = request.walk();
            for mut lent in [Lent::new(1024, 64), Lent::bounded(request)] {
                let answer = lent.run(request);
                assert_eq!(walked.answer.text(), lent.listing(answer), "{name}: the two sides differ");
            }
            steps += walked.steps.len() + 1;
            entries += walked.answer.text().lines().count() - 1;
        }
        Self { name, requests, steps, entries }
    }
}

/// The stored requests without existing starts, each with the number of its refusal, or 0. Left out: where the Rust panics, or wraps where the
/// library gives 12.
fn stored(path: &str) -> Vec<(u32, Request)> {
    let bytes = fs::read(path).expect("the stored requests");
    let mut rest = &bytes[..];
    let mut found = Vec::new();
    while let Some(request) = Request::read(&mut rest) {
        let number = Lent::new(1024, 64).run(&request).err().map_or(0, |refusal| refusal.number);
        let has_panicked = matches!(request.walk().answer, Answer::Panicked { .. });
        if request.existing_starts.is_empty() && number != 12 && !has_panicked {
            found.push((number, request));
        }
    }
    found
}

const EQ: u32 = 0;
const LS: u32 = 9;
const AL: u32 = 14;
const PUSH: u32 = 0xE92D_4FF0;
const POP: u32 = 0xE8BD_8FF0;

/// ADD, MOV, LDR, STR, SUB, ORR, LSL, LDRH, MUL, CMP over registers that PUSH has named.
const PLAIN: [u32; 10] = [
    0xE080_0001, 0xE1A0_2000, 0xE594_3004, 0xE58D_3008, 0xE241_1001, 0xE182_5003, 0xE1A0_6105, 0xE1D4_20B2, 0xE007_0291, 0xE153_0002,
];

fn branch(at: usize, to: usize, condition: u32, link: u32) -> u32 {
    condition << 28 | 5 << 25 | link << 24 | (to as u32).wrapping_sub(at as u32 + 2) & 0xFF_FFFF
}

/// Words in order, with a count of those that are instructions. Pool loads wait for the next place of pools.
struct Code {
    words: Vec<u32>,
    instructions: usize,
    loads: Vec<usize>,
    seed: u32,
}

impl Code {
    fn new() -> Self {
        Self { words: vec![PUSH], instructions: 1, loads: Vec::new(), seed: 1 }
    }

    fn put(&mut self, word: u32) {
        self.words.push(word);
        self.instructions += 1;
    }

    /// Plain instructions in no order that a processor could learn.
    fn plain(&mut self, count: usize) {
        for _ in 0..count {
            self.seed = self.seed.wrapping_mul(1_664_525).wrapping_add(1_013_904_223);
            self.put(PLAIN[(self.seed >> 16) as usize % PLAIN.len()]);
        }
    }

    fn load(&mut self) {
        self.loads.push(self.words.len());
        self.put(0);
    }

    fn go(&mut self, ahead: usize, condition: u32, link: u32) {
        let at = self.words.len();
        self.put(branch(at, at + ahead, condition, link));
    }

    /// The pools, in the order of their loads.
    fn pools(&mut self) {
        for at in mem::take(&mut self.loads) {
            let offset = 4 * (self.words.len() - at - 2) as u32;
            assert!(offset < 0x1000);
            self.words[at] = 0xE59F_0000 | offset;
            self.words.push(0x1234_0000 + at as u32);
        }
    }

    /// Pools between instructions, with a branch past them.
    fn pools_between(&mut self) {
        self.go(1 + self.loads.len(), AL, 0);
        self.pools();
    }

    /// So many instructions in all, the last one given.
    fn end(mut self, instructions: usize, last: u32) -> Request {
        self.plain(instructions - 1 - self.instructions);
        self.put(last);
        self.pools();
        let code: Vec<u8> = self.words.iter().flat_map(|word| word.to_le_bytes()).collect();
        let module_end = BASE + code.len() as u32;
        Request { base: BASE, module_start: BASE, module_end, start: BASE, known_end: None, check: false, existing_starts: Vec::new(), code }
    }
}

fn plain(instructions: usize) -> Request {
    Code::new().end(instructions, POP)
}

/// As a compiler's: in every 16 instructions a label, a pool load and a call, in every 128 a jump table, and pools between in every 512.
fn mixed(instructions: usize) -> Request {
    let mut code = Code::new();
    for group in 1..instructions / 16 - 1 {
        code.plain(4);
        code.go(3, EQ, 0);
        code.load();
        code.go(0x1_0000, AL, 1);
        if group % 8 == 0 {
            code.put(0xE350_0002);
            code.put(LS << 28 | 0x8F_F100);
            [4, 3, 2, 1].into_iter().for_each(|ahead| code.go(ahead, AL, 0));
        }
        code.plain(if group % 8 == 0 { 3 } else { 9 });
        if group % 32 == 0 {
            code.pools_between();
        }
    }
    code.end(instructions, POP)
}

/// A pool load and a label in every four instructions.
fn full(instructions: usize) -> Request {
    let mut code = Code::new();
    for group in 1..instructions / 4 - instructions / 256 {
        code.load();
        code.go(2, EQ, 0);
        code.plain(2);
        if group % 64 == 0 {
            code.pools_between();
        }
    }
    code.end(instructions, POP)
}

/// A call in every four instructions.
fn calling(instructions: usize) -> Request {
    let mut code = Code::new();
    for _ in 1..instructions / 4 {
        code.go(0x1_0000, AL, 1);
        code.plain(3);
    }
    code.end(instructions, POP)
}

/// Each label and each pool is found below all that were found before it: 1,000 labels, and 500 pools behind a branch.
fn backwards() -> Request {
    let mut code = Code::new();
    (0..1000).for_each(|label| code.go(2000 - 2 * label, EQ, 0));
    code.plain(1001);
    (0..500).for_each(|_| code.load());
    code.loads.reverse();
    code.pools_between();
    code.end(4096, POP)
}

fn checked(request: Request) -> Request {
    Request { check: true, ..request }
}

/// The inputs of the first table, the stored requests among them.
fn inputs(path: &str) -> Vec<Input> {
    const ILLEGAL: u32 = 0xE7F0_00F0;
    let mut by_number: BTreeMap<u32, Vec<Request>> = BTreeMap::new();
    stored(path).into_iter().for_each(|(number, request)| by_number.entry(number).or_default().push(request));
    let small = by_number.remove(&0).unwrap_or_default();
    let small = small.into_iter().filter(|request| (16..=24).contains(&(request.code.len() / 4))).collect();
    let mut inputs = vec![
        Input::new("small: stored, 16 to 24 words", small),
        Input::new("small: 20 plain instructions", vec![plain(20)]),
        Input::new("large: plain", vec![plain(4096)]),
        Input::new("large: mixed", vec![mixed(4096)]),
        Input::new("large: mixed, check on", vec![checked(mixed(4096))]),
        Input::new("large: full of pools and labels", vec![full(4096)]),
        Input::new("large: labels and pools found backwards", vec![backwards()]),
        Input::new("large: full of calls", vec![calling(4096)]),
    ];
    inputs.extend(by_number.into_iter().map(|(number, requests)| Input::new(format!("refused {number}: stored"), requests)));
    inputs.push(Input::new("refused 5: at the end of 4,096", vec![Code::new().end(4096, ILLEGAL)]));
    inputs.push(Input::new("refused 14: no end in 4,096", vec![Code::new().end(4096, PLAIN[0])]));
    inputs
}

// ---- timing

/// Nanoseconds of one pass over an input, the best of some rounds.
#[derive(Clone, Copy)]
struct Times {
    rust: f64,
    rust_decoder: f64,
    library: f64,
    library_bounded: f64,
}

/// Nanoseconds of one pass, of as many as fill a round.
fn round(pass: &mut dyn FnMut()) -> f64 {
    let (start, mut passes) = (Instant::now(), 0.0);
    loop {
        pass();
        passes += 1.0;
        let passed = start.elapsed().as_nanos() as f64;
        if passed > ROUND_NANOSECONDS {
            return passed / passes;
        }
    }
}

/// The four take turns.
fn times(requests: &[Request]) -> Times {
    let none = BTreeMap::new();
    let mut lent = Lent::new(1024, 64);
    let mut bounded: Vec<Lent> = requests.iter().map(Lent::bounded).collect();
    let mut passes: [&mut dyn FnMut(); 4] = [
        &mut || requests.iter().for_each(|request| drop(black_box(request.walk_once(&none)))),
        &mut || requests.iter().for_each(Request::decode),
        &mut || requests.iter().for_each(|request| _ = black_box(lent.run(request))),
        &mut || requests.iter().zip(&mut bounded).for_each(|(request, lent)| _ = black_box(lent.run(request))),
    ];
    let mut best = [f64::INFINITY; 4];
    for _ in 0..ROUNDS {
        for (best, pass) in best.iter_mut().zip(&mut passes) {
            *best = best.min(round(pass));
        }
    }
    let [rust, rust_decoder, library, library_bounded] = best;
    Times { rust, rust_decoder, library, library_bounded }
}

fn row(input: &Input) {
    let Input { name, requests, steps, entries } = input;
    let (count, steps) = (requests.len() as f64, *steps as f64);
    let words: usize = requests.iter().map(|request| request.code.len() / 4).sum();
    let Times { rust, rust_decoder, library, library_bounded } = times(requests);
    let side = |time: f64| format!("{:.0} | {:.1}", 1e9 * count / time, time / steps);
    println!(
        "| {name} | {} | {:.1} | {:.1} | {} | {:.1} | {} | {:.2} | {} | {:.2} |",
        requests.len(), steps / count, *entries as f64 / count, side(rust), rust_decoder / words as f64, side(library), rust / library,
        side(library_bounded), rust / library_bounded,
    );
}

fn growth(name: &str, make: fn(usize) -> Request) {
    for instructions in [256, 512, 1024, 2048, 4096] {
        let input = Input::new(name, vec![make(instructions)]);
        let Times { rust, library, library_bounded, .. } = times(&input.requests);
        let steps = input.steps as f64;
        println!("| {name} | {instructions} | {:.1} | {:.1} | {:.1} |", rust / steps, library / steps, library_bounded / steps);
    }
}

fn main() {
    let path = env::args().nth(1).expect("the stored requests");
    println!("| input | functions | steps | entries | Rust, walks/s | ns/step | its decoder alone, ns/word | run, walks/s | ns/step | Rust's time / run's | run with as many places as words, walks/s | ns/step | Rust's time / run's |");
    println!("|---|{}", "--:|".repeat(12));
    inputs(&path).iter().for_each(row);
    println!("\n| input | instructions | Rust, ns/step | run, ns/step | run with as many places as words, ns/step |");
    println!("|---|{}", "--:|".repeat(4));
    growth("plain", plain);
    growth("mixed", mixed);
    growth("full of pools and labels", full);
    growth("full of calls", calling);
}
