//! Paired runs beside loading, running and reading back, made one by one by the caller; and beside plain Rust.

use std::hint::black_box;

use profile_tests::answers::{Answer, Calls, End, Ran};
use profile_tests::calls::Libraries;
use profile_tests::foreign::done_at_once;

use crate::cursor::Refusal;
use crate::previews::count;
use crate::texts::Text;
use crate::timing::{compare, heading, medians, repeat, row};
use crate::translations::compiled;
use crate::{compiler, executors, tables};

const STORE: [i32; 64] = [3; 64];

/// Machine code and its table, with D and n.
struct Pair<'a> {
    code: &'a [u8],
    table: &'a [u8],
    depth: usize,
    cells: usize,
}

impl Pair<'_> {
    fn run(&self, budget: u32) -> (Answer<Ran>, [i32; 64]) {
        let mut store = *black_box(&STORE);
        (Libraries.run_paired(black_box(self.code), self.table, &mut store, self.depth as u64, budget), store)
    }

    fn one_by_one(&self, budget: u32) -> (Answer<Ran>, [i32; 64]) {
        let (mut memory, mut store) = ([0; 129], *black_box(&STORE));
        let (memory, depth) = (&mut memory[..self.depth + 1 + self.cells], self.depth as u64);
        let _ = Libraries.load(self.table, &store, depth, memory);
        let ran = Libraries.run_machine(black_box(self.code), memory, depth, self.cells as u64, budget);
        let _ = Libraries.read_back(self.table, memory, depth, &mut store);
        (ran, store)
    }

    /// The same in plain Rust, the run packed.
    fn plain(&self, budget: u32) -> (Result<u64, Refusal>, [i32; 64]) {
        let mut store = *black_box(&STORE);
        (plain(black_box(self.code), self.table, &mut store, self.depth, budget), store)
    }
}

/// Whether the addresses of tested code, at their first sight from the last record backwards, are 1, 2 and on to n.
#[inline(always)]
fn agree(code: &[u8], n: usize) -> bool {
    let mut seen = 0;
    for record in code.chunks_exact(5).rev() {
        if record[0] == 0x51 || record[0] == 0x53 {
            let address = record[1] as usize;
            if address > seen + 1 {
                return false;
            }
            seen = seen.max(address);
        }
    }
    seen == n
}

#[inline(never)]
fn plain(code: &[u8], table: &[u8], store: &mut [i32], depth: usize, budget: u32) -> Result<u64, Refusal> {
    compiler::whole(code)?;
    if table.len() != 64 || store.len() != 64 {
        return Err(Refusal(8, 0));
    }
    let n = tables::names(table)?;
    compiler::known(code, n)?;
    if !agree(code, n) {
        return Err(Refusal(14, 0));
    }
    if depth > 64 {
        return Err(Refusal(11, 0));
    }
    let mut memory = [0; 129];
    let memory = &mut memory[..depth + 1 + n];
    tables::to_memory(table, store, depth, memory);
    let ran = executors::run_machine(code, memory, depth, budget);
    tables::to_store(table, memory, depth, store);
    Ok(ran)
}

pub fn texts(texts: &[Text], budget: u32) {
    heading(&format!("run paired, budget {budget}, ns per call"), &["three calls"], "");
    for (name, text) in texts {
        let (code, table, depth, cells) = compiled(text);
        let pair = Pair { code: &code, table: &table, depth, cells };
        assert_eq!(pair.run(budget), pair.one_by_one(budget));
        compare(name, count(pair.run(budget).0), || pair.run(budget), || pair.one_by_one(budget));
    }
}

const CALLS: u32 = 500;

/// What the tests of code as long as it may be cost, since its run is done at once.
pub fn longest_code() {
    heading("run paired, 4,096 records, ns per call", &["three calls", "plain Rust"], "");
    for (name, n, cycle) in [
        ("no names", 0, vec![0]),
        ("2 names in every other record", 2, vec![1, 0, 2, 0]),
        ("64 names in every record", 64, (1..=64).collect()),
    ] {
        let code = done_at_once(cycle.into_iter().cycle().take(4095));
        let table = tables::table(n);
        let pair = Pair { code: &code, table: &table, depth: 64, cells: n };
        let ran = Ok(Ran { end: End::Done, count: 1, mark: 0 });
        assert_eq!((pair.run(10), pair.one_by_one(10)), ((ran, STORE), (ran, STORE)));
        assert_eq!(pair.plain(10), (Ok(1 << 16), STORE));
        let times = medians([
            &mut repeat(CALLS, || {
                let _ = black_box(pair.run(10));
            }),
            &mut repeat(CALLS, || {
                let _ = black_box(pair.one_by_one(10));
            }),
            &mut repeat(CALLS, || {
                black_box(pair.plain(10)).0.unwrap();
            }),
        ]);
        row(name, CALLS, times, "");
    }
}
