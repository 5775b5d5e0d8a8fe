//! The proved libraries beside the simple interpreter.

use std::fmt::Debug;

use crate::answers::{memory_cells, Answer, Calls};
use crate::calls::Libraries;
use crate::model::Interpreter;

/// What both do with what they are given, which is the same.
#[track_caller]
pub fn both<T: PartialEq + Debug>(given: &dyn Debug, act: impl Fn(&dyn Calls) -> T) -> T {
    let (got, want) = (act(&Libraries), act(&Interpreter));
    assert_eq!(got, want, "libraries and interpreter, given {given:02x?}");
    got
}

/// Both do the same with what they are given.
#[track_caller]
pub fn alike<T: PartialEq + Debug>(given: &dyn Debug, act: impl Fn(&dyn Calls) -> T) {
    drop(both(given, act));
}

/// A text's machine code and table, with its D and n.
#[derive(Clone, Debug, PartialEq)]
pub struct Compiled {
    pub code: Vec<u8>,
    pub table: Vec<u8>,
    pub depth: u64,
    pub cells: u64,
}

impl Compiled {
    /// Into buffers that fit, by both.
    pub fn of(text: &[u8]) -> Answer<Compiled> {
        both(&text, |calls| {
            let sizes = calls.read(text)?;
            let (mut code, mut table) = (vec![0; sizes.bytes()], vec![0; 64]);
            assert_eq!(calls.compile(text, &mut code, &mut table), Ok(sizes));
            Ok(Compiled { code, table, depth: sizes.depth.into(), cells: sizes.cells.into() })
        })
    }

    /// A memory that the store is loaded into, by both.
    pub fn load(&self, store: &[i32]) -> Vec<i32> {
        both(&(self, store), |calls| {
            let mut memory = vec![7; memory_cells(self.depth, self.cells)];
            assert_eq!(calls.load(&self.table, store, self.depth, &mut memory), Ok(self.cells as usize));
            memory
        })
    }
}
