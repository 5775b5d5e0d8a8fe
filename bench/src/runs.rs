//! The executors, until their ticks or records are spent; and whole calls of short runs.

use std::hint::black_box;

use profile_tests::answers::{Answer, Calls, End, Ran};
use profile_tests::calls::Libraries;

use crate::texts::Text;
use crate::timing::{heading, medians, repeat, row};
use crate::translations::{assembled, compiled};
use crate::{executors, reader, walker};

extern "C" {
    fn plain_run_source(text: *const u8, store: *mut i32, budget: u32) -> u64;
    fn plain_run_assembly(
        code: *const u8,
        code_len: usize,
        store: *mut i32,
        stack: *mut i32,
        depth: usize,
        budget: u32,
    ) -> u64;
    fn plain_run_machine(code: *const u8, code_len: usize, memory: *mut i32, depth: usize, budget: u32) -> u64;
}

const CALLS: u32 = 20_000;

/// The mark of a run that is spent at its budget.
fn mark(ran: Ran, budget: u32) -> u8 {
    assert_eq!((ran.end, ran.count), (End::Spent, budget));
    ran.mark
}

fn proved_mark(answer: Answer<Ran>, budget: u32) -> u8 {
    let Ok(ran) = answer else { panic!("{answer:?}") };
    mark(ran, budget)
}

/// The same as the plain code packs it.
fn plain_mark(packed: u64, budget: u32) -> u8 {
    assert_eq!(packed as u16, 1 << 8);
    assert_eq!((packed >> 16) as u32, budget);
    (packed >> 48) as u8
}

type Store = [i32; 64];

fn walk_proved(text: &[u8], store: &mut Store, ticks: u32) -> u8 {
    *store = [0; 64];
    proved_mark(Libraries.run_source(text, store, ticks), ticks)
}

fn walk_rust(text: &[u8], store: &mut Store, ticks: u32) -> u8 {
    *store = [0; 64];
    mark(walker::run(text, store, ticks), ticks)
}

fn walk_c(text: &[u8], store: &mut Store, ticks: u32) -> u8 {
    *store = [0; 64];
    plain_mark(unsafe { plain_run_source(text.as_ptr(), store.as_mut_ptr(), ticks) }, ticks)
}

pub fn source(loops: &[Text], ticks: u32) {
    heading("source executor, ns per tick", &["plain Rust", "plain C"], "");
    for (name, text) in loops {
        let [mut proved, mut rust, mut c] = [[0; 64]; 3];
        let [mut marked, mut rust_mark, mut c_mark] = [0; 3];
        let times = medians([
            &mut || marked = walk_proved(text, &mut proved, ticks),
            &mut || rust_mark = walk_rust(text, &mut rust, ticks),
            &mut || c_mark = walk_c(text, &mut c, ticks),
        ]);
        assert_eq!((proved, proved), (rust, c));
        assert_eq!((marked, marked), (rust_mark, c_mark));
        row(name, ticks, times, "");
    }
}

pub fn skipped_branch(loops: &[Text], ticks: u32) {
    heading("source, skipped branch, ns per tick", &["plain Rust"], "");
    for (name, text) in loops {
        let [mut proved, mut rust] = [[0; 64]; 2];
        let [mut marked, mut rust_mark] = [0; 2];
        let times = medians([&mut || marked = walk_proved(text, &mut proved, ticks), &mut || {
            rust_mark = walk_rust(text, &mut rust, ticks)
        }]);
        assert_eq!((proved, marked), (rust, rust_mark));
        row(name, ticks, times, "");
    }
}

pub fn assembly(loops: &[Text], ticks: u32) {
    heading("assembly, ns per record", &["plain Rust", "plain C"], "");
    for (name, text) in loops {
        let (code, depth, _) = assembled(text);
        let [mut proved, mut rust, mut c] = [const { [0; 64] }; 3];
        let [mut stack, mut rust_stack, mut c_stack] = [vec![0; depth], vec![0; depth], vec![0; depth]];
        let [mut marked, mut rust_mark, mut c_mark] = [0; 3];
        let times = medians([
            &mut || {
                proved = [0; 64];
                marked = proved_mark(Libraries.run_assembly(&code, &mut proved, &mut stack, ticks), ticks);
            },
            &mut || {
                rust = [0; 64];
                rust_mark = plain_mark(executors::run_assembly(&code, &mut rust, &mut rust_stack, ticks), ticks);
            },
            &mut || {
                c = [0; 64];
                let (store, stack_at) = (c.as_mut_ptr(), c_stack.as_mut_ptr());
                let ran = unsafe { plain_run_assembly(code.as_ptr(), code.len(), store, stack_at, depth, ticks) };
                c_mark = plain_mark(ran, ticks);
            },
        ]);
        assert_eq!((proved, proved), (rust, c));
        assert_eq!((marked, marked), (rust_mark, c_mark));
        row(name, ticks, times, "");
    }
}

pub fn machine(what: &str, loops: &[Text], ticks: u32) {
    heading(what, &["plain Rust", "plain C"], "");
    for (name, text) in loops {
        let (code, _, depth, cells) = compiled(text);
        let size = depth + 1 + cells;
        let [mut proved, mut rust, mut c] = [vec![0; size], vec![0; size], vec![0; size]];
        let [mut marked, mut rust_mark, mut c_mark] = [0; 3];
        let times = medians([
            &mut || {
                proved.fill(0);
                let ran = Libraries.run_machine(&code, &mut proved, depth as u64, cells as u64, ticks);
                marked = proved_mark(ran, ticks);
            },
            &mut || {
                rust.fill(0);
                rust_mark = plain_mark(executors::run_machine(&code, &mut rust, depth, ticks), ticks);
            },
            &mut || {
                c.fill(0);
                let ran = unsafe { plain_run_machine(code.as_ptr(), code.len(), c.as_mut_ptr(), depth, ticks) };
                c_mark = plain_mark(ran, ticks);
            },
        ]);
        assert_eq!((&proved, &proved), (&rust, &c));
        assert_eq!((marked, marked), (rust_mark, c_mark));
        row(name, ticks, times, "");
    }
}

/// The proved call reads the text before it runs it, and so does the plain code.
pub fn short(texts: &[Text], budget: u32) {
    heading(&format!("run source, budget {budget}, ns per call"), &["plain Rust"], "     count");
    for (name, text) in texts {
        let proved = || {
            let mut store = [0; 64];
            (Libraries.run_source(black_box(text), &mut store, budget), store)
        };
        let rust = || {
            let mut store = [0; 64];
            reader::read(black_box(text)).unwrap();
            (Answer::Ok(walker::run(text, &mut store, budget)), store)
        };
        let (Ok(ran), store) = proved() else { panic!("{name}") };
        assert_eq!((Ok(ran), store), rust());
        let times = medians([
            &mut repeat(CALLS, || {
                let _ = black_box(proved());
            }),
            &mut repeat(CALLS, || {
                let _ = black_box(rust());
            }),
        ]);
        row(name, CALLS, times, &format!("{:>10}", ran.count));
    }
}
