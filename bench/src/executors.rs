//! Both executors in plain safe Rust: records decoded from their bytes at each step.

use crate::compiler;
use crate::cursor::Refusal;

/// Where names and stack slots stand.
trait Memory {
    fn named(&mut self, name: i32) -> &mut i32;
    fn slot(&mut self, slot: usize) -> &mut i32;
}

struct Assembly<'a> {
    store: &'a mut [i32],
    stack: &'a mut [i32],
}

impl Memory for Assembly<'_> {
    fn named(&mut self, name: i32) -> &mut i32 {
        &mut self.store[name as usize]
    }
    fn slot(&mut self, slot: usize) -> &mut i32 {
        &mut self.stack[slot]
    }
}

/// Cell j is address j − D; the stack grows from −1 down.
struct Cells<'a> {
    cells: &'a mut [i32],
    depth: usize,
}

impl Memory for Cells<'_> {
    fn named(&mut self, name: i32) -> &mut i32 {
        &mut self.cells[self.depth + name as usize]
    }
    fn slot(&mut self, slot: usize) -> &mut i32 {
        &mut self.cells[self.depth - 1 - slot]
    }
}

/// By the numbers that the probes give them; 2 is no end.
#[derive(Clone, Copy)]
enum End {
    Done = 0,
    Spent = 1,
    Short = 3,
    Full = 4,
    Astray = 5,
}

fn jump(position: usize, operand: i32, last: usize) -> Result<usize, End> {
    let target = position as i64 + 1 + operand as i64;
    if target < 0 || target > last as i64 {
        return Err(End::Astray);
    }
    Ok(target as usize)
}

/// One record at a position: the next position. `size` is the stack's, `mark` the most that it was.
#[inline(always)]
fn step(
    first: u8,
    record: &[u8],
    memory: &mut impl Memory,
    size: &mut usize,
    mark: &mut usize,
    depth: usize,
    position: usize,
    last: usize,
) -> Result<usize, End> {
    let operand = i32::from_le_bytes(record[1..5].try_into().unwrap());
    match record[0] - first {
        kind @ (0 | 1) => {
            if *size == depth {
                return Err(End::Full);
            }
            *memory.slot(*size) = if kind == 0 { operand } else { *memory.named(operand) };
            *size += 1;
            *mark = (*mark).max(*size);
            Ok(position + 1)
        }
        2 => {
            if *size < 2 {
                return Err(End::Short);
            }
            *memory.slot(*size - 2) = memory.slot(*size - 2).saturating_add(*memory.slot(*size - 1));
            *size -= 1;
            Ok(position + 1)
        }
        3 => {
            if *size < 1 {
                return Err(End::Short);
            }
            *memory.named(operand) = *memory.slot(*size - 1);
            *size -= 1;
            Ok(position + 1)
        }
        4 => jump(position, operand, last),
        kind => {
            if *size < 2 {
                return Err(End::Short);
            }
            let less = *memory.slot(*size - 2) < *memory.slot(*size - 1);
            let next = if less == (kind == 5) { jump(position, operand, last)? } else { position + 1 };
            *size -= 2;
            Ok(next)
        }
    }
}

/// A machine between two records.
#[derive(Default)]
struct State {
    position: usize,
    size: usize,
    count: u32,
    mark: usize,
}

/// From a state on, spent at the count `limit`.
#[inline(always)]
fn run(first: u8, code: &[u8], memory: &mut impl Memory, depth: usize, from: State, limit: u32) -> (End, State) {
    let State { mut position, mut size, mut count, mut mark } = from;
    let last = code.len() / 5;
    let end = loop {
        if position == last {
            break End::Done;
        }
        if count == limit {
            break End::Spent;
        }
        count += 1;
        match step(first, &code[5 * position..5 * position + 5], memory, &mut size, &mut mark, depth, position, last) {
            Ok(next) => position = next,
            Err(end) => break end,
        }
    };
    (end, State { position, size, count, mark })
}

/// The end from bit 8, the count from bit 16, the mark from bit 48.
fn packed((end, state): (End, State)) -> u64 {
    (end as u64) << 8 | (state.count as u64) << 16 | (state.mark as u64) << 48
}

pub fn run_machine(code: &[u8], memory: &mut [i32], depth: usize, budget: u32) -> u64 {
    packed(run(0x50, code, &mut Cells { cells: memory, depth }, depth, State::default(), budget))
}

pub fn run_assembly(code: &[u8], store: &mut [i32], stack: &mut [i32], budget: u32) -> u64 {
    let depth = stack.len();
    packed(run(0x40, code, &mut Assembly { store, stack }, depth, State::default(), budget))
}

/// A state's words: position, stack size, count, mark, and three that are written 0.
pub type Words = [u32; 7];

/// Goes on from a state, which a spent run writes; refuses 9, 10, 11, 15.
#[inline(never)]
pub fn go_on(
    code: &[u8],
    memory: &mut [i32],
    depth: usize,
    cells: usize,
    words: &mut Words,
    budget: u32,
) -> Result<u64, Refusal> {
    compiler::whole(code)?;
    compiler::known(code, cells)?;
    if depth > 64 || cells > 64 || memory.len() != depth + 1 + cells {
        return Err(Refusal(11, 0));
    }
    let limit = words[2].checked_add(budget).ok_or(Refusal(15, 0))?;
    let from = State { position: words[0] as usize, size: words[1] as usize, count: words[2], mark: words[3] as usize };
    if from.position > code.len() / 5 || from.size > from.mark || from.mark > depth {
        return Err(Refusal(15, 0));
    }
    let (end, state) = run(0x50, code, &mut Cells { cells: memory, depth }, depth, from, limit);
    if let End::Spent = end {
        *words = [state.position as u32, state.size as u32, state.count, state.mark as u32, 0, 0, 0];
    }
    Ok(packed((end, state)))
}
