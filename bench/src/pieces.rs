//! Runs in pieces, each going on from the state that the one before handed out.

use std::hint::black_box;

use profile_tests::answers::{Calls, State};
use profile_tests::calls::{exported, Libraries};

use crate::executors::{self, Words};
use crate::texts::Text;
use crate::timing::{heading, medians, repeat, row};
use crate::translations::compiled;

/// The proved call and the plain C one have the same shape.
type GoOn = unsafe extern "C" fn(*const u8, usize, *mut i32, usize, u64, u64, *mut u32, usize, u32) -> u64;

extern "C" {
    fn plain_go_on(
        code: *const u8,
        code_len: usize,
        memory: *mut i32,
        memory_len: usize,
        depth: u64,
        cells: u64,
        state: *mut u32,
        state_len: usize,
        budget: u32,
    ) -> u64;
}

/// A machine between two pieces.
#[derive(Clone, Debug, PartialEq)]
struct Machine<'a> {
    code: &'a [u8],
    memory: Vec<i32>,
    depth: usize,
    cells: usize,
    state: Words,
}

impl Machine<'_> {
    fn new(code: &[u8], depth: usize, cells: usize) -> Machine<'_> {
        Machine { code, memory: vec![0; depth + 1 + cells], depth, cells, state: [0; 7] }
    }

    /// Fresh, with a store of zeros.
    fn clear(&mut self) {
        self.memory.fill(0);
        self.state = [0; 7];
    }

    #[inline(always)]
    fn call(&mut self, go_on: GoOn, budget: u32) -> u64 {
        let (code, memory, state) = (black_box(self.code), &mut self.memory, &mut self.state);
        let (depth, cells) = (self.depth as u64, self.cells as u64);
        let (memory_at, state_at) = (memory.as_mut_ptr(), state.as_mut_ptr());
        unsafe { go_on(code.as_ptr(), code.len(), memory_at, memory.len(), depth, cells, state_at, 7, budget) }
    }
}

/// Each gives the packed answer.
fn proved(machine: &mut Machine, budget: u32) -> u64 {
    machine.call(exported::probe_go_on, budget)
}

fn rust(machine: &mut Machine, budget: u32) -> u64 {
    let Machine { code, memory, depth, cells, state } = machine;
    executors::go_on(black_box(code), memory, *depth, *cells, state, budget).unwrap()
}

fn c(machine: &mut Machine, budget: u32) -> u64 {
    machine.call(plain_go_on, budget)
}

/// A run of so many records from a fresh machine, in pieces.
fn run(machine: &mut Machine, records: u32, piece: u32, go_on: impl Fn(&mut Machine, u32) -> u64) {
    machine.clear();
    for _ in 0..records / piece {
        assert_eq!(go_on(machine, piece) as u16, 1 << 8);
    }
}

/// The same in one run.
fn run_whole(machine: &mut Machine, records: u32) {
    machine.clear();
    let (depth, cells) = (machine.depth as u64, machine.cells as u64);
    let answer = Libraries.start(machine.code, &mut machine.memory, depth, cells, records);
    let Ok((_, Some(State { position, size, count, mark }))) = answer else { panic!("{answer:?}") };
    machine.state = [position, size, count, mark, 0, 0, 0];
}

pub fn loops(loops: &[Text], records: u32, piece: u32) {
    heading(&format!("pieces of {piece}, ns per record"), &["one run", "plain Rust", "plain C"], "");
    for (name, text) in loops {
        let (code, _, depth, cells) = compiled(text);
        let [mut cut, mut whole, mut by_rust, mut by_c] = [0; 4].map(|_| Machine::new(&code, depth, cells));
        let times = medians([
            &mut || run(&mut cut, records, piece, proved),
            &mut || run_whole(&mut whole, records),
            &mut || run(&mut by_rust, records, piece, rust),
            &mut || run(&mut by_c, records, piece, c),
        ]);
        assert_eq!((&cut, &cut, &cut), (&whole, &by_rust, &by_c));
        row(name, records, times, "");
    }
}

/// Seconds for a piece from a fresh machine: by the proved call, by plain Rust and by plain C.
fn one_piece(machine: &Machine, budget: u32) -> [f64; 3] {
    let calls = 2_000_000 / (20 + machine.code.len() as u32 / 5);
    let fresh = |machine: &mut Machine| machine.state = black_box([0; 7]);
    let [mut by_proved, mut by_rust, mut by_c] = [0; 3].map(|_| machine.clone());
    let times = medians([
        &mut repeat(calls, || {
            fresh(&mut by_proved);
            black_box(proved(&mut by_proved, budget));
        }),
        &mut repeat(calls, || {
            fresh(&mut by_rust);
            black_box(rust(&mut by_rust, budget));
        }),
        &mut repeat(calls, || {
            fresh(&mut by_c);
            black_box(c(&mut by_c, budget));
        }),
    ]);
    assert_eq!((&by_proved, &by_proved), (&by_rust, &by_c));
    times.map(|seconds| seconds / calls as f64)
}

/// A value stored, over and over, as long as code may be.
fn longest() -> Vec<u8> {
    [0x50, 7, 0, 0, 0, 0x53, 1, 0, 0, 0].repeat(2048)
}

/// What one piece takes, on codes of which the last is the longest. The first and the last tell the two parts of it.
fn of_codes(codes: &[(Vec<u8>, usize, usize)], budget: u32) {
    heading(&format!("one piece of {budget}, ns per call"), &["plain Rust", "plain C"], "");
    let times: Vec<_> = codes
        .iter()
        .map(|(code, depth, cells)| {
            let times = one_piece(&Machine::new(code, *depth, *cells), budget);
            row(&format!("code of {} records", code.len() / 5), 1, times, "");
            times
        })
        .collect();
    let last = codes.len() - 1;
    let [least, most] = [0, last].map(|i| codes[i].0.len() as f64 / 5.0);
    let each = [0, 1, 2].map(|i| (times[last][i] - times[0][i]) / (most - least));
    let fixed = [0, 1, 2].map(|i| times[0][i] - least * each[i]);
    row("of it, the fixed part", 1, fixed, "");
    row("of it, for each record of the code", 1, each, "");
}

/// Pieces of no record and of one, of codes of any length.
pub fn single(texts: &[Text]) {
    println!("\na piece tests its whole code again: a fixed part of its time, and a part for each record of the code");
    let of_text = |(_, text): &Text| {
        let (code, _, depth, cells) = compiled(text);
        (code, depth, cells)
    };
    let mut codes: Vec<_> = texts.iter().map(of_text).collect();
    codes.push((longest(), 1, 1));
    for budget in [0, 1] {
        of_codes(&codes, budget);
    }
}
