//! What the calls answer, and the calls themselves: the proved libraries have them, and so has the simple interpreter.

use std::fmt;

/// A refusal's number and place.
#[derive(Clone, Copy, Debug, PartialEq, Eq)]
pub struct Refusal(pub u8, pub u32);

/// As the programs print it.
impl fmt::Display for Refusal {
    fn fmt(&self, out: &mut fmt::Formatter) -> fmt::Result {
        let Refusal(number, place) = self;
        write!(out, "refused {number} at {place}")
    }
}

/// A call's result, or its refusal.
pub type Answer<T> = Result<T, Refusal>;

/// What reading and compiling give.
#[derive(Clone, Copy, Debug, PartialEq, Eq)]
pub struct Sizes {
    pub records: u16,
    pub depth: u8,
    pub cells: u8,
}

impl Sizes {
    /// How many bytes the records have.
    pub fn bytes(self) -> usize {
        5 * usize::from(self.records)
    }
}

/// How a run ends; since sums hold at the limits (W8), none ends out of range.
#[derive(Clone, Copy, Debug, PartialEq, Eq)]
pub enum End {
    Done,
    Spent,
    Short,
    Full,
    Astray,
}

/// What a run gives; the mark (W2) is the most values that the stack held.
#[derive(Clone, Copy, Debug, PartialEq, Eq)]
pub struct Ran {
    pub end: End,
    pub count: u32,
    pub mark: u8,
}

/// A machine between two records (W7): what a spent run hands out, and what a later call takes.
#[derive(Clone, Copy, Debug, PartialEq, Eq)]
pub struct State {
    pub position: u32,
    pub size: u32,
    pub count: u32,
    pub mark: u32,
}

/// A machine that has not run.
pub const FRESH: State = State { position: 0, size: 0, count: 0, mark: 0 };

/// What a run of machine code gives: the run, and where it is spent the state that it hands out.
pub type Piece = (Ran, Option<State>);

/// How many cells a machine of this D and n has.
pub fn memory_cells(depth: u64, cells: u64) -> usize {
    (depth + 1 + cells) as usize
}

/// The calls. What one may write is lent as `&mut`; D is `depth`, n is `cells`.
pub trait Calls {
    fn read(&self, text: &[u8]) -> Answer<Sizes>;

    fn assemble(&self, text: &[u8], out: &mut [u8]) -> Answer<Sizes>;

    fn compile(&self, text: &[u8], out: &mut [u8], table: &mut [u8]) -> Answer<Sizes>;

    fn run_source(&self, text: &[u8], store: &mut [i32], budget: u32) -> Answer<Ran>;

    fn run_assembly(&self, code: &[u8], store: &mut [i32], stack: &mut [i32], budget: u32) -> Answer<Ran>;

    fn load(&self, table: &[u8], store: &[i32], depth: u64, memory: &mut [i32]) -> Answer<usize>;

    /// A run from a fresh machine, with the state that it hands out.
    fn start(&self, code: &[u8], memory: &mut [i32], depth: u64, cells: u64, budget: u32) -> Answer<Piece>;

    /// The same without the state.
    fn run_machine(&self, code: &[u8], memory: &mut [i32], depth: u64, cells: u64, budget: u32) -> Answer<Ran> {
        self.start(code, memory, depth, cells, budget).map(|(ran, _)| ran)
    }

    fn read_back(&self, table: &[u8], memory: &[i32], depth: u64, store: &mut [i32]) -> Answer<usize>;

    fn go_back(&self, code: &[u8], table: &[u8], out: &mut [u8]) -> Answer<usize>;

    fn preview_source(&self, text: &[u8], store: &[i32], budget: u32, out: &mut [i32]) -> Answer<Ran>;

    fn preview_machine(
        &self,
        code: &[u8],
        memory: &[i32],
        depth: u64,
        table: &[u8],
        store: &[i32],
        budget: u32,
        out: &mut [i32],
    ) -> Answer<Ran>;

    fn inspect(&self, code: &[u8], depth: u64, cells: u64) -> Answer<usize>;

    fn run_paired(&self, code: &[u8], table: &[u8], store: &mut [i32], depth: u64, budget: u32) -> Answer<Ran>;

    fn go_on(&self, code: &[u8], memory: &mut [i32], depth: u64, cells: u64, from: State, budget: u32)
        -> Answer<Piece>;
}
