//! A plain reader of texts: the three sizes, or a refusal.

use crate::cursor::{Cursor, Refusal, Sizes};

struct Reader<'a> {
    cursor: Cursor<'a>,
    records: usize,
}

impl Reader<'_> {
    /// Each gives the depth bound.
    fn expression(&mut self, left: usize) -> Result<usize, Refusal> {
        match self.cursor.first(left)? {
            0x10 => {
                self.cursor.constant()?;
                self.records += 1;
                Ok(1)
            }
            0x11 => {
                self.cursor.variable()?;
                self.records += 1;
                Ok(1)
            }
            0x12 => {
                self.records += 1;
                Ok(self.expression(left - 1)?.max(self.expression(left - 1)? + 1))
            }
            0x13 => {
                self.cursor.one_byte_constant()?;
                self.records += 1;
                Ok(1)
            }
            _ => self.cursor.unknown(),
        }
    }

    fn condition(&mut self, left: usize, flag: bool) -> Result<usize, Refusal> {
        match self.cursor.first(left)? {
            0x20 => {
                self.records += ((self.cursor.operand(1)? == 1) == flag) as usize;
                Ok(0)
            }
            0x21 => self.condition(left - 1, !flag),
            0x22 => Ok(self.condition(left - 1, false)?.max(self.condition(left - 1, flag)?)),
            0x23 => {
                self.records += 1;
                Ok(self.expression(left - 1)?.max(self.expression(left - 1)? + 1))
            }
            _ => self.cursor.unknown(),
        }
    }

    fn command(&mut self, left: usize) -> Result<usize, Refusal> {
        match self.cursor.first(left)? {
            0x00 => Ok(0),
            0x01 => {
                self.cursor.variable()?;
                self.records += 1;
                self.expression(left - 1)
            }
            0x02 => Ok(self.command(left - 1)?.max(self.command(left - 1)?)),
            0x03 => {
                self.records += 1;
                let test = self.condition(left - 1, false)?;
                Ok(test.max(self.command(left - 1)?).max(self.command(left - 1)?))
            }
            0x04 => {
                self.records += 1;
                Ok(self.condition(left - 1, false)?.max(self.command(left - 1)?))
            }
            _ => self.cursor.unknown(),
        }
    }
}

pub fn read(text: &[u8]) -> Result<Sizes, Refusal> {
    let mut reader = Reader { cursor: Cursor::new(text)?, records: 0 };
    let depth = reader.command(64)?;
    Ok((reader.records, depth, reader.cursor.finish()?))
}
