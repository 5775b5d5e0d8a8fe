//! A position in a text, with what both the plain reader and the plain compiler refuse.

#[derive(Debug, PartialEq)]
pub struct Refusal(pub u8, pub usize);

/// Record count, D and n.
pub type Sizes = (usize, usize, usize);

pub struct Cursor<'a> {
    pub text: &'a [u8],
    pub at: usize,
    pub named: [bool; 64],
}

impl<'a> Cursor<'a> {
    pub fn new(text: &'a [u8]) -> Result<Self, Refusal> {
        if text.len() > 4096 {
            return Err(Refusal(6, 0));
        }
        Ok(Cursor { text, at: 0, named: [false; 64] })
    }

    fn byte(&mut self) -> Result<u8, Refusal> {
        let byte = *self.text.get(self.at).ok_or(Refusal(1, self.text.len()))?;
        self.at += 1;
        Ok(byte)
    }

    /// A construct's first byte, with so much nesting left.
    pub fn first(&mut self, left: usize) -> Result<u8, Refusal> {
        let byte = self.byte()?;
        if left == 0 {
            return Err(Refusal(4, self.at - 1));
        }
        Ok(byte)
    }

    pub fn operand(&mut self, most: u8) -> Result<u8, Refusal> {
        let byte = self.byte()?;
        if byte > most {
            return Err(Refusal(3, self.at - 1));
        }
        Ok(byte)
    }

    pub fn variable(&mut self) -> Result<u8, Refusal> {
        let v = self.operand(63)?;
        self.named[v as usize] = true;
        Ok(v)
    }

    pub fn constant(&mut self) -> Result<i32, Refusal> {
        let bytes = self.text.get(self.at..self.at + 4).ok_or(Refusal(1, self.text.len()))?;
        self.at += 4;
        Ok(i32::from_le_bytes(bytes.try_into().unwrap()))
    }

    pub fn one_byte_constant(&mut self) -> Result<i32, Refusal> {
        Ok(self.byte()? as i8 as i32)
    }

    /// The byte just read begins no construct of the kind due.
    pub fn unknown<T>(&self) -> Result<T, Refusal> {
        Err(Refusal(2, self.at - 1))
    }

    /// After the command: bytes left over, or how many variables are named.
    pub fn finish(&self) -> Result<usize, Refusal> {
        if self.at < self.text.len() {
            return Err(Refusal(5, self.at));
        }
        Ok(self.named.iter().filter(|&&named| named).count())
    }
}
