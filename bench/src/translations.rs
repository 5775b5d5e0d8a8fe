//! Texts and code: reading, assembling, compiling, going back.

use std::hint::black_box;

use profile_tests::answers::{self, Answer, Calls};
use profile_tests::calls::Libraries;

use crate::cursor::Sizes;
use crate::texts::Text;
use crate::timing::{heading, medians, repeat, row};
use crate::{compiler, reader};

const CALLS: u32 = 2_000;
/// Fewer calls where there are many rows.
const SHAPE_CALLS: u32 = 200;

fn sizes(answer: Answer<answers::Sizes>) -> Sizes {
    let Ok(sizes) = answer else { panic!("{answer:?}") };
    (sizes.records as usize, sizes.depth as usize, sizes.cells as usize)
}

/// A text's assembly, with D and n.
pub fn assembled(text: &[u8]) -> (Vec<u8>, usize, usize) {
    let mut code = vec![0; 5 * 4096];
    let (records, depth, cells) = sizes(Libraries.assemble(text, &mut code));
    code.truncate(5 * records);
    (code, depth, cells)
}

/// A text's machine code and table, with D and n.
pub fn compiled(text: &[u8]) -> (Vec<u8>, Vec<u8>, usize, usize) {
    let (mut code, mut table) = (vec![0; 5 * 4096], vec![0; 64]);
    let (records, depth, cells) = sizes(Libraries.compile(text, &mut code, &mut table));
    code.truncate(5 * records);
    (code, table, depth, cells)
}

fn read(text: &[u8], count: u32) -> [f64; 2] {
    assert_eq!(Ok(sizes(Libraries.read(text))), reader::read(text));
    medians([
        &mut repeat(count, || {
            let _ = black_box(Libraries.read(black_box(text)));
        }),
        &mut repeat(count, || {
            black_box(reader::read(black_box(text))).unwrap();
        }),
    ])
}

fn assemble(text: &[u8], count: u32) -> [f64; 2] {
    let [mut proved, mut rust] = [vec![0; 5 * 4096], vec![0; 5 * 4096]];
    let times = medians([
        &mut repeat(count, || {
            let _ = black_box(Libraries.assemble(black_box(text), &mut proved));
        }),
        &mut repeat(count, || {
            black_box(compiler::assemble(black_box(text), &mut rust)).unwrap();
        }),
    ]);
    assert_eq!(proved, rust);
    times
}

fn compile(text: &[u8], count: u32) -> [f64; 2] {
    let [mut proved, mut rust] = [vec![0; 5 * 4096], vec![0; 5 * 4096]];
    let [mut table, mut rust_table] = [[0; 64]; 2];
    let times = medians([
        &mut repeat(count, || {
            let _ = black_box(Libraries.compile(black_box(text), &mut proved, &mut table));
        }),
        &mut repeat(count, || {
            black_box(compiler::compile(black_box(text), &mut rust, &mut rust_table)).unwrap();
        }),
    ]);
    assert_eq!((proved, table), (rust, rust_table));
    times
}

fn go_back(text: &[u8], count: u32) -> [f64; 2] {
    let (code, table, _, _) = compiled(text);
    let [mut proved, mut rust] = [vec![0; code.len()], vec![0; code.len()]];
    let times = medians([
        &mut repeat(count, || {
            let _ = black_box(Libraries.go_back(black_box(&code), &table, &mut proved));
        }),
        &mut repeat(count, || {
            black_box(compiler::go_back(black_box(&code), &table, &mut rust)).unwrap();
        }),
    ]);
    assert_eq!(proved, rust);
    times
}

fn per_text(what: &str, texts: &[Text], times: fn(&[u8], u32) -> [f64; 2]) {
    heading(what, &["plain Rust"], "");
    for (name, text) in texts {
        row(name, CALLS, times(text, CALLS), "");
    }
}

/// The last column is the proved call's time for a byte to that of the first shape, which is measured anew beside it.
fn per_byte(what: &str, shapes: &[Text], times: fn(&[u8], u32) -> [f64; 2]) {
    heading(what, &["plain Rust"], "   to first");
    let first = &shapes[0].1;
    for (name, text) in shapes {
        let per_byte = |text: &[u8], times: [f64; 2]| times[0] / text.len() as f64;
        let beside = per_byte(first, times(first, SHAPE_CALLS));
        let times = times(text, SHAPE_CALLS);
        let last = format!("{:>11.2}", per_byte(text, times) / beside);
        row(name, SHAPE_CALLS * text.len() as u32, times, &last);
    }
}

pub fn texts(long: &[Text], short: &[Text]) {
    per_text("read, ns per text", long, read);
    per_text("assemble, ns per text", long, assemble);
    per_text("compile, ns per text", long, compile);
    per_text("go back, ns per text", &[long, short].concat(), go_back);
}

pub fn shapes(shapes: &[Text]) {
    per_byte("assemble by shape, ns per byte", shapes, assemble);
    per_byte("compile by shape, ns per byte", shapes, compile);
}
