//! A simple interpreter of profiles, written from documents 01 and 02 alone: reading, the source rules, compilation,
//! both executors, the way back, the calls, and the printing program. Plain rather than fast; nothing here is shared
//! with the proved code.

use std::fmt::Write;

use crate::answers::{Answer, Calls, End, Piece, Ran, Refusal, Sizes, State, FRESH};

// ---- Profile text

#[derive(Clone, Debug, PartialEq)]
pub enum Expression {
    Constant(i32),
    Variable(u8),
    Plus(Box<Expression>, Box<Expression>),
}

#[derive(Clone, Debug, PartialEq)]
pub enum Condition {
    Bc(bool),
    Not(Box<Condition>),
    And(Box<Condition>, Box<Condition>),
    Less(Expression, Expression),
}

#[derive(Clone, Debug, PartialEq)]
pub enum Command {
    Skip,
    Assign(u8, Expression),
    Sequence(Box<Command>, Box<Command>),
    If(Condition, Box<Command>, Box<Command>),
    While(Condition, Box<Command>),
}

struct Reader<'a> {
    text: &'a [u8],
    at: usize,
}

impl Reader<'_> {
    fn byte(&mut self) -> Answer<u8> {
        let byte = *self.text.get(self.at).ok_or(Refusal(1, self.text.len() as u32))?;
        self.at += 1;
        Ok(byte)
    }

    /// A refusal at the byte that was read last.
    fn refused<T>(&self, number: u8) -> Answer<T> {
        Err(Refusal(number, self.at as u32 - 1))
    }

    /// A construct's first byte, the construct being at this nesting: 1, then 4.
    fn first(&mut self, nesting: usize) -> Answer<u8> {
        let byte = self.byte()?;
        if nesting > 64 {
            return self.refused(4);
        }
        Ok(byte)
    }

    /// An operand byte of at most `most`: 1, then 3.
    fn operand(&mut self, most: u8) -> Answer<u8> {
        let byte = self.byte()?;
        if byte > most {
            return self.refused(3);
        }
        Ok(byte)
    }

    fn expression(&mut self, nesting: usize) -> Answer<Expression> {
        Ok(match self.first(nesting)? {
            0x10 => {
                let mut bytes = [0; 4];
                for byte in &mut bytes {
                    *byte = self.byte()?;
                }
                Expression::Constant(i32::from_le_bytes(bytes))
            }
            0x11 => Expression::Variable(self.operand(63)?),
            0x12 => Expression::Plus(Box::new(self.expression(nesting + 1)?), Box::new(self.expression(nesting + 1)?)),
            // W1: the same constant as 0x10, in one signed byte
            0x13 => Expression::Constant(self.byte()? as i8 as i32),
            _ => return self.refused(2),
        })
    }

    fn condition(&mut self, nesting: usize) -> Answer<Condition> {
        Ok(match self.first(nesting)? {
            0x20 => Condition::Bc(self.operand(1)? == 1),
            0x21 => Condition::Not(Box::new(self.condition(nesting + 1)?)),
            0x22 => Condition::And(Box::new(self.condition(nesting + 1)?), Box::new(self.condition(nesting + 1)?)),
            0x23 => Condition::Less(self.expression(nesting + 1)?, self.expression(nesting + 1)?),
            _ => return self.refused(2),
        })
    }

    fn command(&mut self, nesting: usize) -> Answer<Command> {
        Ok(match self.first(nesting)? {
            0x00 => Command::Skip,
            0x01 => Command::Assign(self.operand(63)?, self.expression(nesting + 1)?),
            0x02 => Command::Sequence(Box::new(self.command(nesting + 1)?), Box::new(self.command(nesting + 1)?)),
            0x03 => Command::If(
                self.condition(nesting + 1)?,
                Box::new(self.command(nesting + 1)?),
                Box::new(self.command(nesting + 1)?),
            ),
            0x04 => Command::While(self.condition(nesting + 1)?, Box::new(self.command(nesting + 1)?)),
            _ => return self.refused(2),
        })
    }
}

pub fn read_text(text: &[u8]) -> Answer<Command> {
    if text.len() > 4096 {
        return Err(Refusal(6, 0));
    }
    let mut reader = Reader { text, at: 0 };
    let command = reader.command(1)?;
    if reader.at < text.len() {
        return Err(Refusal(5, reader.at as u32));
    }
    Ok(command)
}

// ---- Sums (W8)

/// How often sums were held at 2147483647 and at −2147483648.
#[derive(Clone, Copy, Debug, Default, PartialEq, Eq)]
pub struct Held {
    pub above: u32,
    pub below: u32,
}

impl Held {
    /// A sum: "a sum past either limit takes the limit's value". It counts where it is held.
    fn sum(&mut self, x: i32, y: i32) -> i32 {
        let sum = x.saturating_add(y);
        let exact = i64::from(x) + i64::from(y);
        self.above += u32::from(exact > sum.into());
        self.below += u32::from(exact < sum.into());
        sum
    }

    /// Counts runs: one more at each limit at which this one, where it is not refused, held a sum.
    pub fn add_run<T>(&mut self, run: Answer<(T, Held)>) {
        if let Ok((_, held)) = run {
            self.above += u32::from(held.above > 0);
            self.below += u32::from(held.below > 0);
        }
    }

    /// The fewer of both.
    pub fn least(self) -> u32 {
        self.above.min(self.below)
    }
}

// ---- Source rules and ticks

/// A run of the source rules: its store, its count, its budget; the values on the stack, and the most that there were;
/// the sums that it held.
struct Source<'a> {
    store: &'a mut [i32],
    count: u32,
    budget: u32,
    height: u8,
    mark: u8,
    held: Held,
}

impl Source<'_> {
    fn tick(&mut self) -> Result<(), End> {
        if self.count == self.budget {
            return Err(End::Spent);
        }
        self.count += 1;
        Ok(())
    }

    /// W2: "a tick of a constant or variable adds one value, a sum or store takes one off, Less two".
    fn add_one(&mut self) {
        self.height += 1;
        self.mark = self.mark.max(self.height);
    }

    fn value(&mut self, expression: &Expression) -> Result<i32, End> {
        match expression {
            Expression::Constant(z) => {
                self.tick()?;
                self.add_one();
                Ok(*z)
            }
            Expression::Variable(v) => {
                self.tick()?;
                self.add_one();
                Ok(self.store[*v as usize])
            }
            Expression::Plus(left, right) => {
                let (x, y) = (self.value(left)?, self.value(right)?);
                self.tick()?;
                self.height -= 1;
                Ok(self.held.sum(x, y))
            }
        }
    }

    fn truth(&mut self, condition: &Condition, flag: bool) -> Result<bool, End> {
        match condition {
            Condition::Bc(value) => {
                if *value == flag {
                    self.tick()?;
                }
                Ok(*value)
            }
            Condition::Not(part) => Ok(!self.truth(part, !flag)?),
            Condition::And(left, right) => Ok(self.truth(left, false)? && self.truth(right, flag)?),
            Condition::Less(left, right) => {
                let (x, y) = (self.value(left)?, self.value(right)?);
                self.tick()?;
                self.height -= 2;
                Ok(x < y)
            }
        }
    }

    fn execute(&mut self, command: &Command) -> Result<(), End> {
        match command {
            Command::Skip => Ok(()),
            Command::Assign(v, expression) => {
                let z = self.value(expression)?;
                self.tick()?;
                self.height -= 1;
                self.store[*v as usize] = z;
                Ok(())
            }
            Command::Sequence(first, second) => {
                self.execute(first)?;
                self.execute(second)
            }
            Command::If(condition, first, second) => {
                if self.truth(condition, false)? {
                    self.execute(first)?;
                    self.tick()
                } else {
                    self.execute(second)
                }
            }
            Command::While(condition, body) => {
                while self.truth(condition, false)? {
                    self.execute(body)?;
                    self.tick()?;
                }
                Ok(())
            }
        }
    }
}

// ---- Records and compilation

#[derive(Clone, Copy, Debug, PartialEq, Eq)]
pub enum Record {
    Loadi(i32),
    Load(usize),
    Add,
    Store(usize),
    Jmp(i32),
    Jmpless(i32),
    Jmpge(i32),
}

use Record::*;

impl Record {
    /// What the record names.
    fn name(self) -> Option<usize> {
        match self {
            Load(name) | Store(name) => Some(name),
            _ => None,
        }
    }

    fn renamed(self, f: impl Fn(usize) -> usize) -> Record {
        match self {
            Load(name) => Load(f(name)),
            Store(name) => Store(f(name)),
            other => other,
        }
    }

    /// Its number and its operand.
    fn parts(self) -> (u8, i32) {
        match self {
            Loadi(z) => (0, z),
            Load(name) => (1, name as i32),
            Add => (2, 0),
            Store(name) => (3, name as i32),
            Jmp(i) => (4, i),
            Jmpless(i) => (5, i),
            Jmpge(i) => (6, i),
        }
    }
}

fn acomp(expression: &Expression) -> Vec<Record> {
    match expression {
        Expression::Constant(z) => vec![Loadi(*z)],
        Expression::Variable(v) => vec![Load(*v as usize)],
        Expression::Plus(left, right) => [acomp(left), acomp(right), vec![Add]].concat(),
    }
}

fn bcomp(condition: &Condition, flag: bool, i: i32) -> Vec<Record> {
    match condition {
        Condition::Bc(value) if *value == flag => vec![Jmp(i)],
        Condition::Bc(_) => vec![],
        Condition::Not(part) => bcomp(part, !flag, i),
        Condition::And(left, right) => {
            let right = bcomp(right, flag, i);
            let left = bcomp(left, false, right.len() as i32 + if flag { 0 } else { i });
            [left, right].concat()
        }
        Condition::Less(left, right) => {
            [acomp(left), acomp(right), vec![if flag { Jmpless(i) } else { Jmpge(i) }]].concat()
        }
    }
}

pub fn ccomp(command: &Command) -> Vec<Record> {
    match command {
        Command::Skip => vec![],
        Command::Assign(v, expression) => [acomp(expression), vec![Store(*v as usize)]].concat(),
        Command::Sequence(first, second) => [ccomp(first), ccomp(second)].concat(),
        Command::If(condition, first, second) => {
            let (first, second) = (ccomp(first), ccomp(second));
            let test = bcomp(condition, false, first.len() as i32 + 1);
            [test, first, vec![Jmp(second.len() as i32)], second].concat()
        }
        Command::While(condition, body) => {
            let body = ccomp(body);
            let test = bcomp(condition, false, body.len() as i32 + 1);
            let back = -((test.len() + body.len() + 1) as i32);
            [test, body, vec![Jmp(back)]].concat()
        }
    }
}

/// The table: addresses count from the end by last mention.
pub fn table(assembly: &[Record]) -> [u8; 64] {
    let mut table = [0; 64];
    let mut n = 0;
    for name in assembly.iter().rev().filter_map(|record| record.name()) {
        if table[name] == 0 {
            n += 1;
            table[name] = n;
        }
    }
    table
}

pub fn bytes(records: &[Record], first: u8) -> Vec<u8> {
    let mut bytes = Vec::new();
    for record in records {
        let (number, operand) = record.parts();
        bytes.push(first + number);
        bytes.extend(operand.to_le_bytes());
    }
    bytes
}

fn expression_depth(expression: &Expression) -> usize {
    match expression {
        Expression::Plus(left, right) => expression_depth(left).max(expression_depth(right) + 1),
        _ => 1,
    }
}

fn condition_depth(condition: &Condition) -> usize {
    match condition {
        Condition::Bc(_) => 0,
        Condition::Not(part) => condition_depth(part),
        Condition::And(left, right) => condition_depth(left).max(condition_depth(right)),
        Condition::Less(left, right) => expression_depth(left).max(expression_depth(right) + 1),
    }
}

pub fn depth(command: &Command) -> usize {
    match command {
        Command::Skip => 0,
        Command::Assign(_, expression) => expression_depth(expression),
        Command::Sequence(first, second) => depth(first).max(depth(second)),
        Command::If(condition, first, second) => condition_depth(condition).max(depth(first)).max(depth(second)),
        Command::While(condition, body) => condition_depth(condition).max(depth(body)),
    }
}

fn sizes(command: &Command) -> Sizes {
    let assembly = ccomp(command);
    let n = named(&table(&assembly));
    Sizes { records: assembly.len() as u16, depth: depth(command) as u8, cells: n as u8 }
}

/// Bytes after the last record keep their values; an output that is too short is refused.
fn write(bytes: &[u8], out: &mut [u8]) -> Answer<()> {
    if out.len() < bytes.len() {
        return Err(Refusal(7, 0));
    }
    out[..bytes.len()].copy_from_slice(bytes);
    Ok(())
}

// ---- The tests of code and tables

fn whole(code: &[u8]) -> Answer<()> {
    if code.len() % 5 != 0 || code.len() / 5 > 4096 {
        return Err(Refusal(9, 0));
    }
    Ok(())
}

/// The records of code whose first byte and names are these; 10 at the first that is none.
fn records(code: &[u8], first: u8, names: std::ops::RangeInclusive<u64>) -> Answer<Vec<Record>> {
    code.chunks(5)
        .enumerate()
        .map(|(index, bytes)| {
            let operand = i32::from_le_bytes(bytes[1..].try_into().unwrap());
            let named = || {
                let name = u64::try_from(operand).ok().filter(|name| names.contains(name));
                name.map(|name| name as usize).ok_or(Refusal(10, index as u32))
            };
            match bytes[0].wrapping_sub(first) {
                0 => Ok(Loadi(operand)),
                1 => named().map(Load),
                2 if operand == 0 => Ok(Add),
                3 => named().map(Store),
                4 => Ok(Jmp(operand)),
                5 => Ok(Jmpless(operand)),
                6 => Ok(Jmpge(operand)),
                _ => Err(Refusal(10, index as u32)),
            }
        })
        .collect()
}

/// How many variables a table names.
pub fn named(table: &[u8]) -> usize {
    table.iter().filter(|&&entry| entry != 0).count()
}

/// 12: the nonzero entries are 1 to n, once each.
fn tested(table: &[u8]) -> Answer<usize> {
    let mut entries: Vec<usize> = table.iter().filter(|&&entry| entry != 0).map(|&entry| entry as usize).collect();
    entries.sort();
    if entries.iter().copied().eq(1..=entries.len()) {
        Ok(entries.len())
    } else {
        Err(Refusal(12, 0))
    }
}

// ---- Executors

/// What a machine does with its memory: a name's cell, and the cell of a stack slot counted from the bottom.
trait Memory {
    fn named(&mut self, name: usize) -> &mut i32;
    fn slot(&mut self, slot: usize) -> &mut i32;
}

struct AssemblyMemory<'a> {
    store: &'a mut [i32],
    stack: &'a mut [i32],
}

impl Memory for AssemblyMemory<'_> {
    fn named(&mut self, name: usize) -> &mut i32 {
        &mut self.store[name]
    }
    fn slot(&mut self, slot: usize) -> &mut i32 {
        &mut self.stack[slot]
    }
}

/// Cell j is address j − D; the stack grows from −1 down.
struct Cells<'a> {
    cells: &'a mut [i32],
    depth: usize,
}

impl Memory for Cells<'_> {
    fn named(&mut self, name: usize) -> &mut i32 {
        &mut self.cells[self.depth + name]
    }
    fn slot(&mut self, slot: usize) -> &mut i32 {
        &mut self.cells[self.depth - 1 - slot]
    }
}

/// What a record takes off the stack and what it then pushes.
fn effect(record: Record) -> (usize, usize) {
    match record {
        Loadi(_) | Load(_) => (0, 1),
        Add => (2, 1),
        Store(_) => (1, 0),
        Jmp(_) => (0, 0),
        Jmpless(_) | Jmpge(_) => (2, 0),
    }
}

/// The record at the position, and the machine after it; or its end, which changes no cell.
fn step(code: &[Record], memory: &mut dyn Memory, depth: usize, state: State, held: &mut Held) -> Result<State, End> {
    let (position, size) = (state.position as usize, state.size as usize);
    let record = code[position];
    let (takes, puts) = effect(record);
    if size < takes {
        return Err(End::Short);
    }
    let mut next = position as i64 + 1;
    match record {
        Loadi(_) | Load(_) if size == depth => return Err(End::Full),
        Loadi(z) => *memory.slot(size) = z,
        Load(name) => *memory.slot(size) = *memory.named(name),
        Add => *memory.slot(size - 2) = held.sum(*memory.slot(size - 2), *memory.slot(size - 1)),
        Store(name) => *memory.named(name) = *memory.slot(size - 1),
        Jmp(i) => next += i64::from(i),
        Jmpless(i) if *memory.slot(size - 2) < *memory.slot(size - 1) => next += i64::from(i),
        Jmpge(i) if *memory.slot(size - 2) >= *memory.slot(size - 1) => next += i64::from(i),
        Jmpless(_) | Jmpge(_) => {}
    }
    if next < 0 || next > code.len() as i64 {
        return Err(End::Astray);
    }
    let size = (size - takes + puts) as u32;
    Ok(State { position: next as u32, size, mark: state.mark.max(size), ..state })
}

/// Runs on from a machine, spent at the count `limit`: what the run tells, the machine as it is then, and the sums that
/// were held.
fn run(code: &[Record], memory: &mut dyn Memory, depth: usize, from: State, limit: u32) -> (Ran, State, Held) {
    let (mut state, mut held) = (from, Held::default());
    let end = loop {
        if state.position as usize == code.len() {
            break End::Done;
        }
        if state.count == limit {
            break End::Spent;
        }
        state.count += 1;
        match step(code, memory, depth, state, &mut held) {
            Ok(next) => state = next,
            Err(end) => break end,
        }
    };
    (Ran { end, count: state.count, mark: state.mark as u8 }, state, held)
}

/// 11: D or n above 64, or a memory that has not D + 1 + n cells.
fn fits(depth: u64, n: u64, memory: &[i32]) -> Answer<()> {
    if depth > 64 || n > 64 || memory.len() as u64 != depth + 1 + n {
        return Err(Refusal(11, 0));
    }
    Ok(())
}

// ---- Loading, reading back, going back

/// A table and a store, for a call that takes n from the table: 8, 12.
fn cells_named(table: &[u8], store: &[i32]) -> Answer<usize> {
    if table.len() != 64 || store.len() != 64 {
        return Err(Refusal(8, 0));
    }
    tested(table)
}

fn loadable(table: &[u8], store: &[i32], depth: u64, memory: &[i32]) -> Answer<usize> {
    let n = cells_named(table, store)?;
    fits(depth, n as u64, memory)?;
    Ok(n)
}

// ---- Inspection (W5)

/// The positions, in the code or not, to which a record leads.
fn successors(record: Record, position: usize) -> Vec<i64> {
    let next = position as i64 + 1;
    match record {
        Jmp(i) => vec![next + i64::from(i)],
        Jmpless(i) | Jmpge(i) => vec![next + i64::from(i), next],
        _ => vec![next],
    }
}

/// The heights of the positions that can be reached, where heights can be given: from each height its successors' ones,
/// over and over until nothing is new.
fn heights(code: &[Record], depth: usize) -> Option<Vec<Option<usize>>> {
    let mut heights: Vec<Option<usize>> = vec![None; code.len() + 1];
    heights[0] = Some(0);
    loop {
        let before = heights.clone();
        for (position, &record) in code.iter().enumerate() {
            let Some(height) = heights[position] else { continue };
            let (takes, puts) = effect(record);
            let left = height.checked_sub(takes)? + puts;
            if left > depth {
                return None;
            }
            for to in successors(record, position) {
                let to = usize::try_from(to).ok().filter(|&to| to <= code.len())?;
                if *heights[to].get_or_insert(left) != left {
                    return None;
                }
            }
        }
        if heights == before {
            return (heights[code.len()].unwrap_or(0) == 0).then_some(heights);
        }
    }
}

/// The heights of machine code, or 9, 10, 11 (D or n above 64), 13.
pub fn inspected(code: &[u8], depth: u64, n: u64) -> Answer<Vec<Option<usize>>> {
    whole(code)?;
    let records = records(code, 0x50, 1..=n)?;
    if depth > 64 || n > 64 {
        return Err(Refusal(11, 0));
    }
    heights(&records, depth as usize).ok_or(Refusal(13, 0))
}

// ---- A table tested against its code (W6)

/// 14: "seen from the last record backwards, the addresses at their first sight are 1, 2 and on to n".
fn agree(machine: &[Record], n: usize) -> Answer<()> {
    let mut seen = Vec::new();
    for address in machine.iter().rev().filter_map(|record| record.name()) {
        if !seen.contains(&address) {
            seen.push(address);
        }
    }
    if seen.into_iter().eq(1..=n) {
        Ok(())
    } else {
        Err(Refusal(14, 0))
    }
}

// ---- The runs, each with the sums that it held

pub fn by_source(text: &[u8], store: &mut [i32], budget: u32) -> Answer<(Ran, Held)> {
    let command = read_text(text)?;
    if store.len() != 64 {
        return Err(Refusal(8, 0));
    }
    let mut run = Source { store, count: 0, budget, height: 0, mark: 0, held: Held::default() };
    let end = run.execute(&command).err().unwrap_or(End::Done);
    Ok((Ran { end, count: run.count, mark: run.mark }, run.held))
}

pub fn by_assembly(code: &[u8], store: &mut [i32], stack: &mut [i32], budget: u32) -> Answer<(Ran, Held)> {
    whole(code)?;
    if store.len() != 64 {
        return Err(Refusal(8, 0));
    }
    let records = records(code, 0x40, 0..=63)?;
    let depth = stack.len();
    if depth > 64 {
        return Err(Refusal(11, 0));
    }
    let (ran, _, held) = run(&records, &mut AssemblyMemory { store, stack }, depth, FRESH, budget);
    Ok((ran, held))
}

/// W7: goes on from a machine, the budget counting from there; or 9, 10, 11, 15.
pub fn by_machine(
    code: &[u8],
    memory: &mut [i32],
    depth: u64,
    n: u64,
    from: State,
    budget: u32,
) -> Answer<(Piece, Held)> {
    whole(code)?;
    let records = records(code, 0x50, 1..=n)?;
    fits(depth, n, memory)?;
    let depth = depth as usize;
    let limit = from.count.checked_add(budget).ok_or(Refusal(15, 0))?;
    if from.position as usize > records.len() || from.size > from.mark || from.mark as usize > depth {
        return Err(Refusal(15, 0));
    }
    let (ran, state, held) = run(&records, &mut Cells { cells: memory, depth }, depth, from, limit);
    Ok(((ran, (ran.end == End::Spent).then_some(state)), held))
}

// ---- The calls

/// The simple interpreter.
pub struct Interpreter;

impl Calls for Interpreter {
    fn read(&self, text: &[u8]) -> Answer<Sizes> {
        read_text(text).map(|command| sizes(&command))
    }

    fn assemble(&self, text: &[u8], out: &mut [u8]) -> Answer<Sizes> {
        let command = read_text(text)?;
        write(&bytes(&ccomp(&command), 0x40), out)?;
        Ok(sizes(&command))
    }

    fn compile(&self, text: &[u8], out: &mut [u8], lent: &mut [u8]) -> Answer<Sizes> {
        let command = read_text(text)?;
        if lent.len() != 64 {
            return Err(Refusal(8, 0));
        }
        let assembly = ccomp(&command);
        let table = table(&assembly);
        let machine: Vec<Record> = assembly.iter().map(|record| record.renamed(|v| table[v] as usize)).collect();
        write(&bytes(&machine, 0x50), out)?;
        lent.copy_from_slice(&table);
        Ok(sizes(&command))
    }

    fn run_source(&self, text: &[u8], store: &mut [i32], budget: u32) -> Answer<Ran> {
        by_source(text, store, budget).map(|(ran, _)| ran)
    }

    fn run_assembly(&self, code: &[u8], store: &mut [i32], stack: &mut [i32], budget: u32) -> Answer<Ran> {
        by_assembly(code, store, stack, budget).map(|(ran, _)| ran)
    }

    fn load(&self, table: &[u8], store: &[i32], depth: u64, memory: &mut [i32]) -> Answer<usize> {
        let n = loadable(table, store, depth, memory)?;
        memory.fill(0);
        for (v, &address) in table.iter().enumerate().filter(|(_, &address)| address != 0) {
            memory[depth as usize + address as usize] = store[v];
        }
        Ok(n)
    }

    /// Goes on from a fresh machine, to which 15 never applies.
    fn start(&self, code: &[u8], memory: &mut [i32], depth: u64, n: u64, budget: u32) -> Answer<Piece> {
        self.go_on(code, memory, depth, n, FRESH, budget)
    }

    fn read_back(&self, table: &[u8], memory: &[i32], depth: u64, store: &mut [i32]) -> Answer<usize> {
        let n = loadable(table, store, depth, memory)?;
        for (v, &address) in table.iter().enumerate().filter(|(_, &address)| address != 0) {
            store[v] = memory[depth as usize + address as usize];
        }
        Ok(n)
    }

    fn go_back(&self, code: &[u8], table: &[u8], out: &mut [u8]) -> Answer<usize> {
        whole(code)?;
        if table.len() != 64 {
            return Err(Refusal(8, 0));
        }
        let n = tested(table)?;
        let variable = |address: usize| table.iter().position(|&entry| entry as usize == address).unwrap();
        let machine = records(code, 0x50, 1..=n as u64)?;
        let assembly: Vec<Record> = machine.iter().map(|record| record.renamed(variable)).collect();
        write(&bytes(&assembly, 0x40), out)?;
        Ok(assembly.len())
    }

    /// W3: what the source run tells and would have left on a copy of the store.
    fn preview_source(&self, text: &[u8], store: &[i32], budget: u32, out: &mut [i32]) -> Answer<Ran> {
        let mut copy = store.to_vec();
        let ran = self.run_source(text, &mut copy, budget)?;
        out.copy_from_slice(&copy);
        Ok(ran)
    }

    /// W3: what the loaded machine's run tells on a copy of its memory, and what reading back leaves of a copy of the
    /// store.
    fn preview_machine(
        &self,
        code: &[u8],
        memory: &[i32],
        depth: u64,
        table: &[u8],
        store: &[i32],
        budget: u32,
        out: &mut [i32],
    ) -> Answer<Ran> {
        whole(code)?;
        let n = cells_named(table, store)?;
        let (mut cells, mut copy) = (memory.to_vec(), store.to_vec());
        let ran = self.run_machine(code, &mut cells, depth, n as u64, budget)?;
        self.read_back(table, &cells, depth, &mut copy)?;
        out.copy_from_slice(&copy);
        Ok(ran)
    }

    /// W5: the record count, or 9, 10, 11, 13.
    fn inspect(&self, code: &[u8], depth: u64, n: u64) -> Answer<usize> {
        inspected(code, depth, n).map(|heights| heights.len() - 1)
    }

    /// W6: loads a memory of its own, runs and reads back, whatever the end; or 9, 8, 12, 10, 14, 11 (D above 64).
    fn run_paired(&self, code: &[u8], table: &[u8], store: &mut [i32], depth: u64, budget: u32) -> Answer<Ran> {
        whole(code)?;
        let n = cells_named(table, store)?;
        agree(&records(code, 0x50, 1..=n as u64)?, n)?;
        if depth > 64 {
            return Err(Refusal(11, 0));
        }
        let mut memory = vec![0; depth as usize + 1 + n];
        self.load(table, store, depth, &mut memory)?;
        let ran = self.run_machine(code, &mut memory, depth, n as u64, budget)?;
        self.read_back(table, &memory, depth, store)?;
        Ok(ran)
    }

    fn go_on(&self, code: &[u8], memory: &mut [i32], depth: u64, n: u64, from: State, budget: u32) -> Answer<Piece> {
        by_machine(code, memory, depth, n, from, budget).map(|(piece, _)| piece)
    }
}

// ---- The printing program

fn spelled(record: Record, prefix: &str) -> String {
    let name = ["LOADI", "LOAD", "ADD", "STORE", "JMP", "JMPLESS", "JMPGE"][record.parts().0 as usize];
    match record {
        Add => format!("{prefix}{name}"),
        _ => format!("{prefix}{name} {}", record.parts().1),
    }
}

/// How an end is printed; a text and what it compiles to come to no other.
pub fn printed(end: End) -> &'static str {
    match end {
        End::Done => "done",
        End::Spent => "spent",
        other => panic!("a text's run ended {other:?}"),
    }
}

/// What the program prints for a text on standard input.
pub fn show(text: &[u8]) -> String {
    let command = match read_text(text) {
        Ok(command) => command,
        Err(refusal) => return format!("{refusal}\n"),
    };
    let assembly = ccomp(&command);
    let table = table(&assembly);
    let mut out = format!("records {} stack {} cells {}\n", assembly.len(), depth(&command), named(&table));
    for (position, &record) in assembly.iter().enumerate() {
        let machine = record.renamed(|v| table[v] as usize);
        writeln!(out, "{position} {} | {}", spelled(record, ""), spelled(machine, "M")).unwrap();
    }
    let mut store = [0; 64];
    let ran = Interpreter.run_source(text, &mut store, 1_000_000).unwrap();
    writeln!(out, "run {} {}", printed(ran.end), ran.count).unwrap();
    for (v, value) in store.iter().enumerate().filter(|(v, _)| table[*v] != 0) {
        writeln!(out, "{v} {value}").unwrap();
    }
    out
}
