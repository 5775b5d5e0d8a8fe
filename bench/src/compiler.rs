//! A plain compiler of texts to assembly: one pass, jumps patched once they know their distance. It refuses what the
//! proved one refuses.

use crate::cursor::{Cursor, Refusal, Sizes};

struct Compiler<'a> {
    cursor: Cursor<'a>,
    code: Vec<u8>,
    /// The positions of jumps that wait for their target.
    waiting: Vec<usize>,
}

impl Compiler<'_> {
    fn emit(&mut self, byte: u8, operand: i32) {
        let [a, b, c, d] = operand.to_le_bytes();
        self.code.extend_from_slice(&[byte, a, b, c, d]);
    }

    fn position(&self) -> usize {
        self.code.len() / 5
    }

    /// Lets the jump at a position lead here.
    fn patch(&mut self, position: usize) {
        let distance = (self.position() - position - 1) as i32;
        self.code[5 * position + 1..5 * position + 5].copy_from_slice(&distance.to_le_bytes());
    }

    fn patch_from(&mut self, start: usize) {
        while self.waiting.len() > start {
            let position = self.waiting.pop().unwrap();
            self.patch(position);
        }
    }

    fn jump_later(&mut self, byte: u8) {
        self.waiting.push(self.position());
        self.emit(byte, 0);
    }

    /// Gives the depth bound.
    fn expression(&mut self, left: usize) -> Result<usize, Refusal> {
        match self.cursor.first(left)? {
            0x10 => {
                let z = self.cursor.constant()?;
                self.emit(0x40, z);
                Ok(1)
            }
            0x11 => {
                let v = self.cursor.variable()?;
                self.emit(0x41, v as i32);
                Ok(1)
            }
            0x12 => {
                let depth = self.expression(left - 1)?.max(self.expression(left - 1)? + 1);
                self.emit(0x42, 0);
                Ok(depth)
            }
            0x13 => {
                let z = self.cursor.one_byte_constant()?;
                self.emit(0x40, z);
                Ok(1)
            }
            _ => self.cursor.unknown(),
        }
    }

    /// Waiting jumps are taken where the condition's value is the flag.
    fn condition(&mut self, left: usize, flag: bool) -> Result<usize, Refusal> {
        match self.cursor.first(left)? {
            0x20 => {
                if (self.cursor.operand(1)? == 1) == flag {
                    self.jump_later(0x44);
                }
                Ok(0)
            }
            0x21 => self.condition(left - 1, !flag),
            0x22 if flag => {
                let start = self.waiting.len();
                let depth = self.condition(left - 1, false)?;
                let middle = self.waiting.len();
                let depth = depth.max(self.condition(left - 1, true)?);
                for i in start..middle {
                    self.patch(self.waiting[i]);
                }
                self.waiting.drain(start..middle);
                Ok(depth)
            }
            0x22 => Ok(self.condition(left - 1, false)?.max(self.condition(left - 1, false)?)),
            0x23 => {
                let depth = self.expression(left - 1)?.max(self.expression(left - 1)? + 1);
                self.jump_later(if flag { 0x45 } else { 0x46 });
                Ok(depth)
            }
            _ => self.cursor.unknown(),
        }
    }

    fn command(&mut self, left: usize) -> Result<usize, Refusal> {
        match self.cursor.first(left)? {
            0x00 => Ok(0),
            0x01 => {
                let v = self.cursor.variable()?;
                let depth = self.expression(left - 1)?;
                self.emit(0x43, v as i32);
                Ok(depth)
            }
            0x02 => Ok(self.command(left - 1)?.max(self.command(left - 1)?)),
            0x03 => {
                let start = self.waiting.len();
                let test = self.condition(left - 1, false)?;
                let first = self.command(left - 1)?;
                let over = self.position();
                self.emit(0x44, 0);
                self.patch_from(start);
                let second = self.command(left - 1)?;
                self.patch(over);
                Ok(test.max(first).max(second))
            }
            0x04 => {
                let (start, begin) = (self.waiting.len(), self.position());
                let test = self.condition(left - 1, false)?;
                let body = self.command(left - 1)?;
                self.emit(0x44, begin as i32 - self.position() as i32 - 1);
                self.patch_from(start);
                Ok(test.max(body))
            }
            _ => self.cursor.unknown(),
        }
    }
}

pub fn assemble(text: &[u8], out: &mut [u8]) -> Result<Sizes, Refusal> {
    let cursor = Cursor::new(text)?;
    let mut compiler = Compiler { cursor, code: Vec::with_capacity(5 * text.len()), waiting: Vec::new() };
    let depth = compiler.command(64)?;
    let cells = compiler.cursor.finish()?;
    let code = &compiler.code;
    out.get_mut(..code.len()).ok_or(Refusal(7, 0))?.copy_from_slice(code);
    Ok((code.len() / 5, depth, cells))
}

const LOAD: u8 = 1;
const STORE: u8 = 3;

/// Assembles, finds each variable's address from the end, and turns each record into the machine's.
pub fn compile(text: &[u8], out: &mut [u8], table: &mut [u8]) -> Result<Sizes, Refusal> {
    if table.len() != 64 {
        return Err(Refusal(8, 0));
    }
    let sizes = assemble(text, out)?;
    table.fill(0);
    let mut n = 0;
    for record in out[..5 * sizes.0].chunks_exact_mut(5).rev() {
        let kind = record[0] - 0x40;
        record[0] = 0x50 + kind;
        if kind == LOAD || kind == STORE {
            let address = &mut table[record[1] as usize];
            if *address == 0 {
                n += 1;
                *address = n;
            }
            record[1] = *address;
        }
    }
    Ok(sizes)
}

/// The variable of each address; refuses a table that is none.
fn variables(table: &[u8]) -> Result<([u8; 65], usize), Refusal> {
    let n = table.iter().filter(|&&address| address != 0).count();
    let (mut variables, mut seen) = ([0; 65], [false; 65]);
    for (v, &address) in table.iter().enumerate().filter(|(_, &address)| address != 0) {
        if address as usize > n || seen[address as usize] {
            return Err(Refusal(12, 0));
        }
        seen[address as usize] = true;
        variables[address as usize] = v as u8;
    }
    Ok((variables, n))
}

/// Refuses code that is not whole records, or too many.
#[inline(always)]
pub fn whole(code: &[u8]) -> Result<(), Refusal> {
    if code.len() % 5 != 0 || code.len() / 5 > 4096 {
        return Err(Refusal(9, 0));
    }
    Ok(())
}

/// Refuses the first that is no machine record with addresses from 1 to n.
#[inline(always)]
pub fn known(code: &[u8], n: usize) -> Result<(), Refusal> {
    for (index, record) in code.chunks_exact(5).enumerate() {
        let operand = i32::from_le_bytes(record[1..].try_into().unwrap());
        let known = match record[0].wrapping_sub(0x50) {
            LOAD | STORE => operand >= 1 && operand as usize <= n,
            2 => operand == 0,
            kind => kind <= 6,
        };
        if !known {
            return Err(Refusal(10, index));
        }
    }
    Ok(())
}

/// The assembly of machine code and its table; the record count.
pub fn go_back(code: &[u8], table: &[u8], out: &mut [u8]) -> Result<usize, Refusal> {
    whole(code)?;
    if table.len() != 64 {
        return Err(Refusal(8, 0));
    }
    let (variables, n) = variables(table)?;
    known(code, n)?;
    let out = out.get_mut(..code.len()).ok_or(Refusal(7, 0))?;
    for (record, to) in code.chunks_exact(5).zip(out.chunks_exact_mut(5)) {
        let kind = record[0] - 0x50;
        to.copy_from_slice(record);
        to[0] = 0x40 + kind;
        if kind == LOAD || kind == STORE {
            to[1] = variables[record[1] as usize];
        }
    }
    Ok(code.len() / 5)
}
