//! Codes that our compiler did not write, from a seed.

use std::cmp::Ordering;

use crate::generator::Random;

/// A record's five bytes.
pub fn record(first: u8, operand: i32) -> [u8; 5] {
    let [a, b, c, d] = operand.to_le_bytes();
    [first, a, b, c, d]
}

/// Code of a kind, whose LOADI is `first`: records that are mostly good, of few names and short jumps.
pub fn code(random: &mut Random, first: u8) -> Vec<u8> {
    let mut code = Vec::new();
    for _ in 0..random.below(12) {
        let number = random.below(7) as u8;
        let operand = match number {
            0 => random.cell(),
            1 | 3 => random.below(5) as i32,
            2 => 0,
            _ => random.below(9) as i32 - 4,
        };
        let other = random.one_in(60);
        let first = if other { random.bits() as u8 } else { first + number };
        code.extend(record(first, if random.one_in(60) { random.cell() } else { operand }));
    }
    if random.one_in(30) {
        code.pop();
    }
    code
}

/// Machine code that is done at once: a jump to the end, over records that name, from the last backwards, these
/// addresses or, where it is 0, none.
pub fn done_at_once(names: impl Iterator<Item = u8>) -> Vec<u8> {
    let mut records: Vec<[u8; 5]> =
        names.map(|name| record(if name == 0 { 0x50 } else { 0x53 }, name.into())).collect();
    records.push(record(0x54, records.len() as i32));
    records.into_iter().rev().flatten().collect()
}

/// Heights from 0 to 0, at least so many after the first, none above D: each from the one before it by a push, a store,
/// a sum, a comparing jump or, after a jump, freely. And which of the records between them are jumps.
fn heights(random: &mut Random, depth: usize, least: usize) -> (Vec<usize>, Vec<bool>) {
    let (mut heights, mut jumps) = (vec![0], Vec::new());
    while heights.len() <= least || *heights.last().unwrap() != 0 {
        let height = *heights.last().unwrap();
        let jump = random.one_in(8) || depth == 0;
        jumps.push(jump);
        heights.push(match random.below(3) {
            _ if jump => random.below(depth + 1),
            0 if height >= 2 => height - 2,
            1 if height >= 1 => height - 1,
            _ if height < depth => height + 1,
            _ => height - 1,
        });
    }
    (heights, jumps)
}

/// Machine code with its D and n, as another tool than our compiler may write it.
pub struct Foreign {
    pub code: Vec<u8>,
    pub depth: u64,
    pub cells: u64,
}

impl Foreign {
    /// Code to which heights can be given, of at least so many records. The heights come first, then the records, a
    /// jump going to any position of the height that it leaves.
    pub fn with_heights(random: &mut Random, least: usize) -> Foreign {
        let (depth, cells) = (random.below(7), 1 + random.below(3));
        let (heights, jumps) = heights(random, depth, least);
        let mut code = Vec::new();
        for (p, &jump) in jumps.iter().enumerate() {
            let (height, next) = (heights[p], heights[p + 1]);
            let left = if jump { height } else { next };
            let targets: Vec<usize> = (0..heights.len()).filter(|&q| heights[q] == left).collect();
            let by = targets[random.below(targets.len())] as i32 - (p as i32 + 1);
            let name = 1 + random.below(cells) as i32;
            code.extend(match height.cmp(&next) {
                _ if jump => record(0x54, by),
                Ordering::Less if random.one_in(2) => record(0x50, random.cell()),
                Ordering::Less => record(0x51, name),
                _ if next + 2 == height => record(0x55 + random.below(2) as u8, by),
                _ if height >= 2 && random.one_in(2) => record(0x52, 0),
                _ => record(0x53, name),
            });
        }
        Foreign { code, depth: depth as u64, cells: cells as u64 }
    }

    /// The same, short or long. An inspection passes it.
    pub fn safe(random: &mut Random) -> Foreign {
        let most = [4, 12, 40, 300][random.below(4)];
        let least = random.below(most + 1);
        Foreign::with_heights(random, least)
    }

    /// The same as it is, damaged or with a stray jump: its runs come to every end.
    pub fn any(random: &mut Random) -> Foreign {
        let mut foreign = Foreign::safe(random);
        for _ in 0..random.below(3) {
            foreign.damage(random);
        }
        if random.one_in(4) {
            foreign.stray(random);
        }
        foreign
    }

    /// The addresses numbered anew by their first sight from the last record backwards; n is then how many are named.
    pub fn renumber(&mut self) {
        let mut seen: Vec<[u8; 4]> = Vec::new();
        for record in self.code.chunks_exact_mut(5).rev().filter(|record| [0x51, 0x53].contains(&record[0])) {
            let address = record[1..].try_into().unwrap();
            let at = seen.iter().position(|&one| one == address).unwrap_or(seen.len());
            if at == seen.len() {
                seen.push(address);
            }
            record[1..].copy_from_slice(&(at as i32 + 1).to_le_bytes());
        }
        self.cells = seen.len() as u64;
    }

    /// The same records in assembly, each address being a variable.
    pub fn assembly(&self) -> Vec<u8> {
        let mut code = self.code.clone();
        code.iter_mut().step_by(5).for_each(|first| *first -= 0x10);
        code
    }

    /// One of its jumps, where it has any, sent out of the code.
    pub fn stray(&mut self, random: &mut Random) {
        let jumps: Vec<usize> = (0..self.code.len()).step_by(5).filter(|&at| self.code[at] >= 0x54).collect();
        if !jumps.is_empty() {
            let at = jumps[random.below(jumps.len())];
            let by = [-5000, 5000, i32::MIN, i32::MAX][random.below(4)];
            self.code[at + 1..at + 5].copy_from_slice(&by.to_le_bytes());
        }
    }

    /// One record exchanged, dropped or doubled, one operand changed, or one stack cell less.
    pub fn damage(&mut self, random: &mut Random) {
        if self.code.is_empty() {
            return;
        }
        let at = 5 * random.below(self.code.len() / 5);
        let number = random.below(7) as u8;
        match random.below(6) {
            0 => self.depth = self.depth.saturating_sub(1),
            1 => drop(self.code.drain(at..at + 5)),
            2 => {
                let record: Vec<u8> = self.code[at..at + 5].to_vec();
                self.code.splice(at..at, record);
            }
            3 | 4 if self.code[at] >= 0x54 => {
                let by = random.below(7) as i32 - 3;
                self.code[at + 1..at + 5].copy_from_slice(&by.to_le_bytes());
            }
            _ => {
                let operand = match number {
                    1 | 3 => 1 + random.below(self.cells as usize) as i32,
                    2 => 0,
                    _ => random.below(9) as i32 - 4,
                };
                self.code[at] = 0x50 + number;
                self.code[at + 1..at + 5].copy_from_slice(&operand.to_le_bytes());
            }
        }
    }
}
