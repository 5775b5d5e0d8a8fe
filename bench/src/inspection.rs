//! The inspection of machine code.

use std::hint::black_box;

use profile_tests::answers::Calls;
use profile_tests::calls::Libraries;
use profile_tests::foreign::Foreign;
use profile_tests::generator::Random;

use crate::compiler;
use crate::cursor::Refusal;
use crate::texts::Text;
use crate::timing::{compare, heading};
use crate::translations::compiled;

/// What each record takes off the stack and what it then pushes.
const EFFECTS: [(u8, u8); 7] = [(0, 1), (0, 1), (2, 1), (1, 0), (0, 0), (2, 0), (2, 0)];

/// No height yet.
const NONE: u8 = 255;

/// Whether heights can be given: each position that can be reached gets its height and is looked at once.
fn passes(code: &[u8], depth: u8) -> bool {
    let last = code.len() / 5;
    let mut heights = vec![NONE; last + 1];
    heights[0] = 0;
    let mut due = vec![0];
    while let Some(position) = due.pop() {
        let height = heights[position];
        if position == last {
            if height != 0 {
                return false;
            }
            continue;
        }
        let record = &code[5 * position..5 * position + 5];
        let operand = i32::from_le_bytes(record[1..].try_into().unwrap());
        let kind = record[0] - 0x50;
        let (takes, puts) = EFFECTS[kind as usize];
        if height < takes || height - takes + puts > depth {
            return false;
        }
        let (left, next) = (height - takes + puts, position as i64 + 1);
        let jump = (kind >= 4).then_some(next + operand as i64);
        let step = (kind != 4).then_some(next);
        for to in jump.into_iter().chain(step) {
            if to < 0 || to > last as i64 {
                return false;
            }
            let to = to as usize;
            if heights[to] == NONE {
                heights[to] = left;
                due.push(to);
            } else if heights[to] != left {
                return false;
            }
        }
    }
    true
}

#[inline(never)]
fn inspect(code: &[u8], depth: usize, cells: usize) -> Result<usize, Refusal> {
    compiler::whole(code)?;
    compiler::known(code, cells)?;
    if depth > 64 || cells > 64 {
        return Err(Refusal(11, 0));
    }
    if !passes(code, depth as u8) {
        return Err(Refusal(13, 0));
    }
    Ok(code.len() / 5)
}

fn record(first: u8, operand: i32) -> Vec<u8> {
    [vec![first], operand.to_le_bytes().to_vec()].concat()
}

/// Code that no compiler wrote, with D 2 and n 1: a value stored, over and over; comparing jumps to the end; each
/// jumping to the one before it.
fn foreign(records: usize) -> [(&'static str, Vec<u8>); 3] {
    let straight = [record(0x50, 7), record(0x53, 1)].concat().repeat(records / 2);
    let straight = [straight, record(0x54, 0).repeat(records % 2)].concat();
    let mut branches: Vec<u8> = (0..records / 3)
        .flat_map(|i| [record(0x50, 7), record(0x51, 1), record(0x55, (records - 3 * i - 3) as i32)].concat())
        .collect();
    branches.extend(record(0x54, 0).repeat(records % 3));
    let mut backwards = record(0x54, records as i32 - 2).repeat(2);
    backwards.extend(record(0x54, -2).repeat(records - 2));
    [("in a row", straight), ("branches", branches), ("backwards", backwards)]
}

/// Code with records, heights and jumps at random, of about so many records, with a stack of some depth.
fn random(records: usize) -> Foreign {
    let least = records - records / 16;
    (0..).map(|seed| Foreign::with_heights(&mut Random::new(seed), least)).find(|foreign| foreign.depth > 3).unwrap()
}

/// Foreign code, long and short, and what our compiler writes.
pub fn codes(texts: &[Text]) {
    heading("inspect, ns per call", &["plain Rust"], "");
    let mut codes = Vec::new();
    for records in [4, 16, 64, 255, 256, 1024, 4096] {
        codes.extend(foreign(records).map(|(name, code)| (format!("{records} records {name}"), code, 2, 1)));
    }
    for records in [16, 64, 1024, 4096] {
        let Foreign { code, depth, cells } = random(records);
        codes.push((format!("{} records at random", code.len() / 5), code, depth as usize, cells as usize));
    }
    for (name, text) in texts {
        let (code, _, depth, cells) = compiled(text);
        codes.push((format!("{name}, {} records", code.len() / 5), code, depth, cells));
    }
    for (name, code, depth, cells) in codes {
        let proved = || Libraries.inspect(black_box(&code), depth as u64, cells as u64);
        let plain = || inspect(black_box(&code), depth, cells);
        assert_eq!((proved(), plain()), (Ok(code.len() / 5), Ok(code.len() / 5)), "{name}");
        compare(&name, 2_000_000 / (20 + code.len() as u32 / 5), proved, plain);
    }
}
