//! W5, inspection: random foreign code, of which about half passes, beside the simple interpreter; what passes is run,
//! and what our compiler writes passes.

use profile_tests::answers::{memory_cells, Answer, Calls, End, Refusal};
use profile_tests::both::{both, Compiled};
use profile_tests::calls::Libraries;
use profile_tests::foreign::{self, record, Foreign};
use profile_tests::generator::Random;
use profile_tests::{model, seeds};

const CODES: u64 = 20_000;

const NO_HEIGHTS: Answer<usize> = Err(Refusal(13, 0));

fn inspected(code: &[u8], depth: u64, cells: u64) -> Answer<usize> {
    both(&(depth, cells, code), |calls| calls.inspect(code, depth, cells))
}

/// What the inspection answers. Code that passes never ends short, full or astray: it is done or spent, and its mark is
/// at most the greatest height.
fn checked(foreign: &Foreign, random: &mut Random) -> Answer<usize> {
    let Foreign { code, depth, cells } = foreign;
    let records = inspected(code, *depth, *cells)?;
    let heights = model::inspected(code, *depth, *cells).unwrap();
    let greatest = heights.into_iter().flatten().max().unwrap();
    for _ in 0..4 {
        let mut memory = random.cells(memory_cells(*depth, *cells));
        let ran = Libraries.run_machine(code, &mut memory, *depth, *cells, random.budget()).unwrap();
        assert!(matches!(ran.end, End::Done | End::Spent), "{ran:?}");
        assert!(ran.mark as usize <= greatest, "{ran:?}, greatest height {greatest}");
    }
    Ok(records)
}

/// Code made from heights passes; damaged once or twice, about half of it does.
#[test]
fn foreign_code() {
    let mut passed = 0;
    seeds::for_each(CODES, |random| {
        let mut foreign = Foreign::safe(random);
        assert_eq!(checked(&foreign, random), Ok(foreign.code.len() / 5));
        for _ in 0..1 + random.below(2) {
            foreign.damage(random);
        }
        match checked(&foreign, random) {
            Ok(_) => passed += 1,
            refused => assert_eq!(refused, NO_HEIGHTS),
        }
    });
    if seeds::all() {
        assert!((CODES * 2 / 5..CODES * 3 / 5).contains(&passed), "{passed} of {CODES} damaged codes pass");
    }
}

/// Records in any order, few of which have heights, some of which are none, with D and n of any size.
#[test]
fn any_code() {
    seeds::for_each(CODES, |random| {
        let code = foreign::code(random, 0x50);
        let depth = [random.below(4), 60 + random.below(10), random.bits() as usize][random.below(3)];
        let cells = [4, 60 + random.below(10), random.bits() as usize][random.below(3)];
        let _ = inspected(&code, depth as u64, cells as u64);
    });
}

/// What our compiler writes passes with its own D and n; damaged, it may.
#[test]
fn compiled_code() {
    seeds::for_each_text(4000, |text, random| {
        let Ok(Compiled { code, depth, cells, .. }) = Compiled::of(text) else { return };
        let records = code.len() / 5;
        let mut foreign = Foreign { code, depth, cells };
        assert_eq!(checked(&foreign, random), Ok(records));
        foreign.cells = cells.max(1);
        foreign.damage(random);
        let _ = inspected(&foreign.code, foreign.depth, foreign.cells);
    });
}

/// Code as long as it may be, and at the lengths near which the search changes its tables: jumps in a row, and jumps
/// each to the one before it.
#[test]
fn longest_code() {
    for records in [1, 255, 256, 257, 4095, 4096, 4097] {
        let straight = record(0x54, 0).repeat(records);
        let mut backwards = record(0x54, records as i32 - 2).repeat(2);
        backwards.extend(record(0x54, -2).repeat(records.saturating_sub(2)));
        for code in [straight, backwards] {
            let want = match code.len() / 5 {
                4097 => Err(Refusal(9, 0)),
                records => Ok(records),
            };
            assert_eq!(inspected(&code, 0, 0), want);
        }
    }
}
