//! Tables: their test alone, loading and reading back.

use std::hint::black_box;

use profile_tests::answers::{self, Calls};
use profile_tests::calls::Libraries;

use crate::cursor::Refusal;
use crate::timing::{compare, heading};

const CALLS: u32 = 200_000;
const DEPTH: usize = 64;

/// How many variables a table names. Address a has bit a - 1 of one word.
#[inline(always)]
pub fn names(table: &[u8]) -> Result<usize, Refusal> {
    let (mut marks, mut n) = (0u64, 0);
    for &address in table {
        if address != 0 {
            n += 1;
            if address <= 64 {
                marks |= 1 << (address - 1);
            }
        }
    }
    let lowest = if n == 64 { u64::MAX } else { (1 << n) - 1 };
    if marks == lowest {
        Ok(n)
    } else {
        Err(Refusal(12, 0))
    }
}

fn tested(table: &[u8], store: &[i32], depth: usize, memory: &[i32]) -> Result<usize, Refusal> {
    if table.len() != 64 || store.len() != 64 {
        return Err(Refusal(8, 0));
    }
    let n = names(table)?;
    if depth > 64 || memory.len() != depth + 1 + n {
        return Err(Refusal(11, 0));
    }
    Ok(n)
}

/// Each named variable at its address, of a table, a store and a memory that passed their tests,
#[inline(always)]
pub fn to_memory(table: &[u8], store: &[i32], depth: usize, memory: &mut [i32]) {
    for (&address, &value) in table.iter().zip(store) {
        if address != 0 {
            memory[depth + address as usize] = value;
        }
    }
}

/// and from its address.
#[inline(always)]
pub fn to_store(table: &[u8], memory: &[i32], depth: usize, store: &mut [i32]) {
    for (&address, value) in table.iter().zip(store) {
        if address != 0 {
            *value = memory[depth + address as usize];
        }
    }
}

#[inline(never)]
fn load(table: &[u8], store: &[i32], depth: usize, memory: &mut [i32]) -> Result<usize, Refusal> {
    let n = tested(table, store, depth, memory)?;
    memory.fill(0);
    to_memory(table, store, depth, memory);
    Ok(n)
}

#[inline(never)]
fn read_back(table: &[u8], memory: &[i32], depth: usize, store: &mut [i32]) -> Result<usize, Refusal> {
    let n = tested(table, store, depth, memory)?;
    to_store(table, memory, depth, store);
    Ok(n)
}

/// A table of so many names: the first of every so many variables, the last with address 1.
pub fn table(n: usize) -> [u8; 64] {
    let mut table = [0; 64];
    for address in 1..=n {
        table[(n - address) * 64 / n] = address as u8;
    }
    table
}

const NAMES: [usize; 4] = [2, 7, 32, 64];

fn name(n: usize) -> String {
    format!("a table of {n} names")
}

/// Loading into no cells declines with 11, which comes right after the table's test.
pub fn test() {
    heading("test of a table, ns per call", &["plain Rust"], "");
    for n in NAMES {
        let (table, store) = (table(n), [3; 64]);
        let proved = || Libraries.load(black_box(&table), &store, DEPTH as u64, &mut []);
        let plain = || load(black_box(&table), &store, DEPTH, &mut []);
        assert_eq!((proved(), plain()), (Err(answers::Refusal(11, 0)), Err(Refusal(11, 0))));
        compare(&name(n), CALLS, proved, plain);
    }
}

pub fn loading() {
    heading("load, ns per call", &["plain Rust"], "");
    for n in NAMES {
        let (table, store) = (table(n), [3; 64]);
        let [mut memory, mut plain_memory] = [vec![7; DEPTH + 1 + n], vec![7; DEPTH + 1 + n]];
        compare(
            &name(n),
            CALLS,
            || Libraries.load(black_box(&table), &store, DEPTH as u64, &mut memory),
            || load(black_box(&table), &store, DEPTH, &mut plain_memory),
        );
        assert_eq!(memory, plain_memory);
    }
}

pub fn reading_back() {
    heading("read back, ns per call", &["plain Rust"], "");
    for n in NAMES {
        let (table, memory) = (table(n), vec![7; DEPTH + 1 + n]);
        let [mut store, mut plain_store] = [[3; 64]; 2];
        compare(
            &name(n),
            CALLS,
            || Libraries.read_back(black_box(&table), &memory, DEPTH as u64, &mut store),
            || read_back(black_box(&table), &memory, DEPTH, &mut plain_store),
        );
        assert_eq!(store, plain_store);
    }
}
