//! A plain safe Rust walker over the text's bytes: the source rules as one would write them by hand.
//! The text is one that reading accepts.

use profile_tests::answers::{End, Ran};

struct Walker<'a> {
    text: &'a [u8],
    store: &'a mut [i32],
    left: u32,
    /// The values on the stack, and the most that were.
    height: usize,
    mark: usize,
    /// Where the part that starts at a position ends; 0 as long as it is not known.
    ends: Vec<u16>,
}

pub fn run(text: &[u8], store: &mut [i32], budget: u32) -> Ran {
    let mut walker = Walker { text, store, left: budget, height: 0, mark: 0, ends: vec![0; text.len()] };
    let end = walker.command(0).err().unwrap_or(End::Done);
    Ran { end, count: budget - walker.left, mark: walker.mark as u8 }
}

impl Walker<'_> {
    fn tick(&mut self) -> Result<(), End> {
        if self.left == 0 {
            return Err(End::Spent);
        }
        self.left -= 1;
        Ok(())
    }

    fn push(&mut self) {
        self.height += 1;
        self.mark = self.mark.max(self.height);
    }

    /// The value, and the position after the expression.
    fn expression(&mut self, at: usize) -> Result<(i32, usize), End> {
        match self.text[at] {
            0x10 => {
                self.tick()?;
                self.push();
                let bytes = self.text[at + 1..at + 5].try_into().unwrap();
                Ok((i32::from_le_bytes(bytes), at + 5))
            }
            0x11 => {
                self.tick()?;
                self.push();
                Ok((self.store[self.text[at + 1] as usize], at + 2))
            }
            0x13 => {
                self.tick()?;
                self.push();
                Ok((self.text[at + 1] as i8 as i32, at + 2))
            }
            _ => {
                let (x, middle) = self.expression(at + 1)?;
                let (y, next) = self.expression(middle)?;
                self.tick()?;
                self.height -= 1;
                Ok((x.saturating_add(y), next))
            }
        }
    }

    fn condition(&mut self, at: usize, flag: bool) -> Result<(bool, usize), End> {
        match self.text[at] {
            0x20 => {
                let value = self.text[at + 1] == 1;
                if value == flag {
                    self.tick()?;
                }
                Ok((value, at + 2))
            }
            0x21 => self.condition(at + 1, !flag).map(|(value, next)| (!value, next)),
            0x22 => {
                let (value, middle) = self.condition(at + 1, false)?;
                if value {
                    self.condition(middle, flag)
                } else {
                    Ok((false, self.part_end(middle)))
                }
            }
            _ => {
                let (x, middle) = self.expression(at + 1)?;
                let (y, next) = self.expression(middle)?;
                self.tick()?;
                self.height -= 2;
                Ok((x < y, next))
            }
        }
    }

    /// The position after the command.
    fn command(&mut self, at: usize) -> Result<usize, End> {
        match self.text[at] {
            0x00 => Ok(at + 1),
            0x01 => {
                let (z, next) = self.expression(at + 2)?;
                self.tick()?;
                self.height -= 1;
                self.store[self.text[at + 1] as usize] = z;
                Ok(next)
            }
            0x02 => {
                let middle = self.command(at + 1)?;
                self.command(middle)
            }
            0x03 => {
                let (value, first) = self.condition(at + 1, false)?;
                if value {
                    let second = self.command(first)?;
                    self.tick()?;
                    Ok(self.part_end(second))
                } else {
                    let second = self.part_end(first);
                    self.command(second)
                }
            }
            _ => loop {
                let (value, body) = self.condition(at + 1, false)?;
                if !value {
                    return Ok(self.part_end(body));
                }
                self.command(body)?;
                self.tick()?;
            },
        }
    }

    /// The position after the part, from the table; where it is not known, it is found and kept.
    fn part_end(&mut self, at: usize) -> usize {
        if self.ends[at] == 0 {
            self.ends[at] = self.passed(at) as u16;
        }
        self.ends[at] as usize
    }

    /// The position after the part, byte by byte.
    fn passed(&self, at: usize) -> usize {
        match self.text[at] {
            0x00 => at + 1,
            0x01 => self.passed(at + 2),
            0x03 => self.passed(self.passed(self.passed(at + 1))),
            0x10 => at + 5,
            0x11 | 0x13 | 0x20 => at + 2,
            0x21 => self.passed(at + 1),
            _ => self.passed(self.passed(at + 1)),
        }
    }
}
