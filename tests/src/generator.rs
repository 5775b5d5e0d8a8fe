//! Texts, stores and tables from a seed.

/// Numbers from a seed (splitmix64).
pub struct Random(u64);

impl Random {
    pub fn new(seed: u64) -> Random {
        Random(seed)
    }

    pub fn bits(&mut self) -> u64 {
        self.0 = self.0.wrapping_add(0x9e37_79b9_7f4a_7c15);
        let z = (self.0 ^ (self.0 >> 30)).wrapping_mul(0xbf58_476d_1ce4_e5b9);
        let z = (z ^ (z >> 27)).wrapping_mul(0x94d0_49bb_1331_11eb);
        z ^ (z >> 31)
    }

    /// A number below n.
    pub fn below(&mut self, n: usize) -> usize {
        (self.bits() % n as u64) as usize
    }

    pub fn one_in(&mut self, n: usize) -> bool {
        self.below(n) == 0
    }

    /// A cell's value: small, at a limit, or anything.
    pub fn cell(&mut self) -> i32 {
        match self.below(6) {
            0 => i32::MAX - self.below(3) as i32,
            1 => i32::MIN + self.below(3) as i32,
            2 => self.bits() as i32,
            3 => [1 << 30, -(1 << 30), (1 << 30) - 1][self.below(3)],
            _ => self.below(21) as i32 - 10,
        }
    }

    pub fn cells(&mut self, n: usize) -> Vec<i32> {
        (0..n).map(|_| self.cell()).collect()
    }

    /// How long a store or a table is lent: 64 most of the time.
    pub fn lent_length(&mut self) -> usize {
        if self.one_in(20) {
            self.below(130)
        } else {
            64
        }
    }

    pub fn bytes(&mut self, n: usize) -> Vec<u8> {
        (0..n).map(|_| self.bits() as u8).collect()
    }

    /// One of the bytes changed to any, where there is one.
    pub fn change_byte(&mut self, bytes: &mut [u8]) {
        if !bytes.is_empty() {
            let at = self.below(bytes.len());
            bytes[at] = self.bits() as u8;
        }
    }

    /// One of a table's entries changed to a small one.
    pub fn change_entry(&mut self, table: &mut [u8]) {
        let at = self.below(64);
        table[at] = self.below(8) as u8;
    }

    /// A budget: none, few ticks, or many.
    pub fn budget(&mut self) -> u32 {
        match self.below(5) {
            0 => self.below(4) as u32,
            1 => self.below(40) as u32,
            _ => self.below(4000) as u32,
        }
    }
}

/// A text that is being made: about `most` bytes, of these many variables.
struct Maker<'a> {
    random: &'a mut Random,
    text: Vec<u8>,
    most: usize,
    variables: usize,
}

impl Maker<'_> {
    fn full(&self) -> bool {
        self.text.len() + 12 > self.most
    }

    fn variable(&mut self) {
        let v = self.random.below(self.variables);
        self.text.push(v as u8);
    }

    fn expression(&mut self, nesting_left: usize) {
        if nesting_left > 1 && !self.full() && self.random.one_in(2) {
            self.text.push(0x12);
            self.expression(nesting_left - 1);
            self.expression(nesting_left - 1);
        } else if self.random.one_in(2) {
            self.text.push(0x11);
            self.variable();
        } else if self.random.one_in(2) {
            self.text.push(0x13);
            let byte = self.random.bits();
            self.text.push(byte as u8);
        } else {
            self.text.push(0x10);
            let cell = self.random.cell();
            self.text.extend(cell.to_le_bytes());
        }
    }

    fn condition(&mut self, nesting_left: usize) {
        let kinds = if nesting_left == 1 { 1 } else { 5 };
        match self.random.below(kinds) {
            0 => {
                self.text.push(0x20);
                let value = self.random.below(2);
                self.text.push(value as u8);
            }
            1 if !self.full() => {
                self.text.push(0x21);
                self.condition(nesting_left - 1);
            }
            2 if !self.full() => {
                self.text.push(0x22);
                self.condition(nesting_left - 1);
                self.condition(nesting_left - 1);
            }
            _ => {
                self.text.push(0x23);
                self.expression(nesting_left - 1);
                self.expression(nesting_left - 1);
            }
        }
    }

    fn command(&mut self, nesting_left: usize) {
        if nesting_left == 1 || self.full() {
            return self.text.push(0x00);
        }
        match self.random.below(10) {
            0 => self.text.push(0x00),
            1..=3 => {
                self.text.push(0x01);
                self.variable();
                self.expression(nesting_left - 1);
            }
            4..=6 => {
                self.text.push(0x02);
                self.command(nesting_left - 1);
                self.command(nesting_left - 1);
            }
            7..=8 => {
                self.text.push(0x03);
                self.condition(nesting_left - 1);
                self.command(nesting_left - 1);
                self.command(nesting_left - 1);
            }
            _ => {
                self.text.push(0x04);
                self.condition(nesting_left - 1);
                self.command(nesting_left - 1);
            }
        }
    }

    /// Sequences one in the other, so that the text is as long as it may be.
    fn long(&mut self, nesting_left: usize) {
        if nesting_left < 20 || self.full() {
            return self.command(nesting_left);
        }
        self.text.push(0x02);
        self.long(nesting_left - 1);
        self.long(nesting_left - 1);
    }

    /// One construct in the other, down to the last nesting.
    fn deep(&mut self, nesting_left: usize) {
        match nesting_left {
            1 => self.text.push(0x00),
            _ => match self.random.below(3) {
                0 => {
                    self.text.push(0x02);
                    self.text.push(0x00);
                    self.deep(nesting_left - 1);
                }
                1 => {
                    self.text.push(0x03);
                    self.condition(2);
                    self.deep(nesting_left - 1);
                    self.text.push(0x00);
                }
                _ => {
                    self.text.push(0x04);
                    self.condition(2);
                    self.deep(nesting_left - 1);
                }
            },
        }
    }

    /// An assignment of an expression that nests in itself, on the right or on either side, down to the last nesting.
    fn deep_expression(&mut self) {
        self.text.extend([0x01, 0x00]);
        let sums = if self.random.one_in(2) { 62 } else { self.random.below(63) };
        let right_only = self.random.one_in(2);
        let mut after = Vec::new();
        for _ in 0..sums {
            self.text.push(0x12);
            let leaf = [0x11, self.random.below(self.variables) as u8];
            if right_only || self.random.one_in(2) {
                self.text.extend(leaf);
            } else {
                after.push(leaf);
            }
        }
        self.text.extend([0x11, 0x00]);
        for leaf in after.into_iter().rev() {
            self.text.extend(leaf);
        }
    }
}

/// A text of one of several shapes, most of them accepted.
pub fn text(random: &mut Random) -> Vec<u8> {
    let most = [30, 120, 600, 4096][random.below(4)];
    let variables = [1, 3, 8, 64][random.below(4)];
    let shape = random.below(8);
    let mut maker = Maker { random, text: Vec::new(), most, variables };
    match shape {
        0..=2 => maker.command(64),
        3 => maker.long(64),
        4 => maker.deep(64),
        5 => maker.deep_expression(),
        6 => {
            maker.command(64);
            let text = maker.text;
            return damaged(text, random);
        }
        _ => {
            let n = random.below(30);
            return random.bytes(n);
        }
    }
    maker.text
}

/// A text with a byte changed, cut, added or doubled.
pub fn damaged(mut text: Vec<u8>, random: &mut Random) -> Vec<u8> {
    let at = random.below(text.len());
    match random.below(5) {
        0 => text[at] = random.bits() as u8,
        1 => text.truncate(at),
        2 => text.insert(at, [0x00, 0x02, 0x10, 0x12, 0x13, 0x20, 0x22, 0x40][random.below(8)]),
        3 => text.push(random.bits() as u8),
        _ => text.extend(text.clone()),
    }
    text
}

/// A table of so many names, the variables and their addresses in any order.
pub fn table(random: &mut Random, n: usize) -> Vec<u8> {
    let mut table: Vec<u8> = (0..64).map(|v| if v < n { v as u8 + 1 } else { 0 }).collect();
    for v in (1..64).rev() {
        table.swap(v, random.below(v + 1));
    }
    table
}
