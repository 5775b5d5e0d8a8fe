//! The calls by the proved libraries. A slice is passed as a pointer and then a length; an answer comes back as one
//! number, by the packing that `include/profile.h` describes.

use crate::answers::{Answer, Calls, End, Piece, Ran, Refusal, Sizes, State};

/// The functions as they are exported.
pub mod exported {
    extern "C" {
        pub fn profile_read(text: *const u8, text_len: usize) -> u64;
        pub fn probe_assemble(text: *const u8, text_len: usize, out: *mut u8, out_len: usize) -> u64;
        pub fn profile_compile(
            text: *const u8,
            text_len: usize,
            code: *mut u8,
            code_len: usize,
            table: *mut u8,
            table_len: usize,
        ) -> u64;
        pub fn probe_run_source(
            text: *const u8,
            text_len: usize,
            store: *mut i32,
            store_len: usize,
            budget: u32,
        ) -> u64;
        pub fn probe_run_assembly(
            code: *const u8,
            code_len: usize,
            store: *mut i32,
            store_len: usize,
            stack: *mut i32,
            stack_len: usize,
            budget: u32,
        ) -> u64;
        pub fn probe_load(
            table: *const u8,
            table_len: usize,
            store: *const i32,
            store_len: usize,
            depth: u64,
            memory: *mut i32,
            memory_len: usize,
        ) -> u64;
        pub fn probe_run_machine(
            code: *const u8,
            code_len: usize,
            memory: *mut i32,
            memory_len: usize,
            depth: u64,
            cells: u64,
            budget: u32,
            state: *mut u32,
            state_len: usize,
        ) -> u64;
        pub fn probe_read_back(
            table: *const u8,
            table_len: usize,
            memory: *const i32,
            memory_len: usize,
            depth: u64,
            store: *mut i32,
            store_len: usize,
        ) -> u64;
        pub fn profile_go_back(
            code: *const u8,
            code_len: usize,
            table: *const u8,
            table_len: usize,
            out: *mut u8,
            out_len: usize,
        ) -> u64;
        pub fn probe_preview_source(
            text: *const u8,
            text_len: usize,
            store: *const i32,
            store_len: usize,
            budget: u32,
            out: *mut i32,
            out_len: usize,
        ) -> u64;
        pub fn probe_preview_machine(
            code: *const u8,
            code_len: usize,
            memory: *const i32,
            memory_len: usize,
            depth: u64,
            table: *const u8,
            table_len: usize,
            store: *const i32,
            store_len: usize,
            budget: u32,
            out: *mut i32,
            out_len: usize,
        ) -> u64;
        pub fn probe_inspect(code: *const u8, code_len: usize, depth: u64, cells: u64) -> u64;
        pub fn probe_run_paired(
            code: *const u8,
            code_len: usize,
            table: *const u8,
            table_len: usize,
            store: *mut i32,
            store_len: usize,
            depth: u64,
            budget: u32,
        ) -> u64;
        pub fn probe_go_on(
            code: *const u8,
            code_len: usize,
            memory: *mut i32,
            memory_len: usize,
            depth: u64,
            cells: u64,
            state: *mut u32,
            state_len: usize,
            budget: u32,
        ) -> u64;
    }
}

/// The answer in bits 0 to 39: a refusal, or what `result` reads from the number.
fn answer<T>(packed: u64, result: impl Fn(u64) -> T) -> Answer<T> {
    match packed as u8 {
        0 => Ok(result(packed)),
        number => Err(Refusal(number, (packed >> 8) as u32)),
    }
}

fn sizes(packed: u64) -> Sizes {
    assert_eq!(packed >> 40, 0, "bits above the packing: {packed:#x}");
    Sizes { records: (packed >> 8) as u16, depth: (packed >> 24) as u8, cells: (packed >> 32) as u8 }
}

fn ran(packed: u64) -> Ran {
    assert_eq!(packed >> 56, 0, "bits above the packing: {packed:#x}");
    let end = match (packed >> 8) as u8 {
        0 => End::Done,
        1 => End::Spent,
        2 => panic!("a run ended out of range: since W8 sums hold at the limits, and no run does"),
        3 => End::Short,
        4 => End::Full,
        5 => End::Astray,
        other => panic!("no end has number {other}"),
    };
    Ran { end, count: (packed >> 16) as u32, mark: (packed >> 48) as u8 }
}

fn count(packed: u64) -> usize {
    assert_eq!(packed >> 24, 0, "bits above the packing: {packed:#x}");
    (packed >> 8) as usize
}

/// What a state's last three words hold before a call: they belong to later requests, and no call looks at them.
const UNUSED: u32 = 0xa5a5_a5a5;

/// A state's seven words.
fn words(state: State) -> [u32; 7] {
    [state.position, state.size, state.count, state.mark, UNUSED, UNUSED, UNUSED]
}

/// The answer of a call that was lent these words and left those: a spent run writes all seven, its count and its mark
/// among them and 0 in the last three; any other answer leaves them.
fn piece(packed: u64, lent: [u32; 7], left: [u32; 7]) -> Answer<Piece> {
    let answer = answer(packed, |packed| {
        let [position, size, count, mark, ..] = left;
        let ran = ran(packed);
        (ran, (ran.end == End::Spent).then_some(State { position, size, count, mark }))
    });
    match answer {
        Ok((ran, Some(state))) => {
            assert_eq!((state.count, state.mark), (ran.count, ran.mark.into()), "{left:?}");
            assert_eq!(left[4..], [0; 3], "{answer:?}");
        }
        _ => assert_eq!(left, lent, "{answer:?}"),
    }
    answer
}

/// The proved libraries.
pub struct Libraries;

impl Calls for Libraries {
    fn read(&self, text: &[u8]) -> Answer<Sizes> {
        answer(unsafe { exported::profile_read(text.as_ptr(), text.len()) }, sizes)
    }

    fn assemble(&self, text: &[u8], out: &mut [u8]) -> Answer<Sizes> {
        answer(unsafe { exported::probe_assemble(text.as_ptr(), text.len(), out.as_mut_ptr(), out.len()) }, sizes)
    }

    fn compile(&self, text: &[u8], out: &mut [u8], table: &mut [u8]) -> Answer<Sizes> {
        let (text_at, out_at, table_at) = (text.as_ptr(), out.as_mut_ptr(), table.as_mut_ptr());
        let packed =
            unsafe { exported::profile_compile(text_at, text.len(), out_at, out.len(), table_at, table.len()) };
        answer(packed, sizes)
    }

    fn run_source(&self, text: &[u8], store: &mut [i32], budget: u32) -> Answer<Ran> {
        let (text_at, store_at) = (text.as_ptr(), store.as_mut_ptr());
        answer(unsafe { exported::probe_run_source(text_at, text.len(), store_at, store.len(), budget) }, ran)
    }

    fn run_assembly(&self, code: &[u8], store: &mut [i32], stack: &mut [i32], budget: u32) -> Answer<Ran> {
        let (code_at, store_at, stack_at) = (code.as_ptr(), store.as_mut_ptr(), stack.as_mut_ptr());
        let packed = unsafe {
            exported::probe_run_assembly(code_at, code.len(), store_at, store.len(), stack_at, stack.len(), budget)
        };
        answer(packed, ran)
    }

    fn load(&self, table: &[u8], store: &[i32], depth: u64, memory: &mut [i32]) -> Answer<usize> {
        let (table_at, store_at, memory_at) = (table.as_ptr(), store.as_ptr(), memory.as_mut_ptr());
        let packed = unsafe {
            exported::probe_load(table_at, table.len(), store_at, store.len(), depth, memory_at, memory.len())
        };
        answer(packed, count)
    }

    fn start(&self, code: &[u8], memory: &mut [i32], depth: u64, cells: u64, budget: u32) -> Answer<Piece> {
        let lent = [UNUSED; 7];
        let mut state = lent;
        let (code_at, memory_at, state_at) = (code.as_ptr(), memory.as_mut_ptr(), state.as_mut_ptr());
        let packed = unsafe {
            exported::probe_run_machine(code_at, code.len(), memory_at, memory.len(), depth, cells, budget, state_at, 7)
        };
        piece(packed, lent, state)
    }

    fn read_back(&self, table: &[u8], memory: &[i32], depth: u64, store: &mut [i32]) -> Answer<usize> {
        let (table_at, memory_at, store_at) = (table.as_ptr(), memory.as_ptr(), store.as_mut_ptr());
        let packed = unsafe {
            exported::probe_read_back(table_at, table.len(), memory_at, memory.len(), depth, store_at, store.len())
        };
        answer(packed, count)
    }

    fn go_back(&self, code: &[u8], table: &[u8], out: &mut [u8]) -> Answer<usize> {
        let (code_at, table_at, out_at) = (code.as_ptr(), table.as_ptr(), out.as_mut_ptr());
        let packed =
            unsafe { exported::profile_go_back(code_at, code.len(), table_at, table.len(), out_at, out.len()) };
        answer(packed, count)
    }

    fn preview_source(&self, text: &[u8], store: &[i32], budget: u32, out: &mut [i32]) -> Answer<Ran> {
        let (text_at, store_at, out_at) = (text.as_ptr(), store.as_ptr(), out.as_mut_ptr());
        let packed = unsafe {
            exported::probe_preview_source(text_at, text.len(), store_at, store.len(), budget, out_at, out.len())
        };
        answer(packed, ran)
    }

    fn preview_machine(
        &self,
        code: &[u8],
        memory: &[i32],
        depth: u64,
        table: &[u8],
        store: &[i32],
        budget: u32,
        out: &mut [i32],
    ) -> Answer<Ran> {
        let (code_at, memory_at, table_at) = (code.as_ptr(), memory.as_ptr(), table.as_ptr());
        let (store_at, out_at) = (store.as_ptr(), out.as_mut_ptr());
        let packed = unsafe {
            exported::probe_preview_machine(
                code_at,
                code.len(),
                memory_at,
                memory.len(),
                depth,
                table_at,
                table.len(),
                store_at,
                store.len(),
                budget,
                out_at,
                out.len(),
            )
        };
        answer(packed, ran)
    }

    fn inspect(&self, code: &[u8], depth: u64, cells: u64) -> Answer<usize> {
        answer(unsafe { exported::probe_inspect(code.as_ptr(), code.len(), depth, cells) }, count)
    }

    fn run_paired(&self, code: &[u8], table: &[u8], store: &mut [i32], depth: u64, budget: u32) -> Answer<Ran> {
        let (code_at, table_at, store_at) = (code.as_ptr(), table.as_ptr(), store.as_mut_ptr());
        let packed = unsafe {
            exported::probe_run_paired(code_at, code.len(), table_at, table.len(), store_at, store.len(), depth, budget)
        };
        answer(packed, ran)
    }

    fn go_on(
        &self,
        code: &[u8],
        memory: &mut [i32],
        depth: u64,
        cells: u64,
        from: State,
        budget: u32,
    ) -> Answer<Piece> {
        let lent = words(from);
        let mut state = lent;
        let (code_at, memory_at, state_at) = (code.as_ptr(), memory.as_mut_ptr(), state.as_mut_ptr());
        let packed = unsafe {
            exported::probe_go_on(code_at, code.len(), memory_at, memory.len(), depth, cells, state_at, 7, budget)
        };
        piece(packed, lent, state)
    }
}
