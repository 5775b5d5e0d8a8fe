//! W2, the most values that the stack held: as it grows with each tick, at each end, and the same by the three
//! executors, each beside the simple interpreter.

use profile_tests::answers::{Calls, End, Ran};
use profile_tests::both::{both, Compiled};
use profile_tests::foreign::record;
use profile_tests::seeds;

const SEEDS: u64 = 2000;

/// What the source rules, the text's assembly on a stack of D cells, and its machine code tell from a store under a
/// budget: the same.
fn told(text: &[u8], compiled: &Compiled, start: &[i32], budget: u32) -> Ran {
    let Compiled { code, depth, cells, .. } = compiled;
    let loaded = compiled.load(start);
    let ran = both(&(text, start, budget), |calls| {
        let (mut assembly, mut memory) = (vec![0; code.len()], loaded.clone());
        calls.assemble(text, &mut assembly).unwrap();
        [
            calls.run_source(text, &mut start.to_vec(), budget),
            calls.run_assembly(&assembly, &mut start.to_vec(), &mut vec![7; *depth as usize], budget),
            calls.run_machine(code, &mut memory, *depth, *cells, budget),
        ]
        .map(Result::unwrap)
    });
    assert_eq!(ran, [ran[0]; 3], "{budget}");
    ran[0]
}

fn marks(text: &[u8], budgets: std::ops::RangeInclusive<u32>) -> Vec<u8> {
    let compiled = Compiled::of(text).unwrap();
    budgets.map(|budget| told(text, &compiled, &[3; 64], budget).mark).collect()
}

/// x0 := (1 + 2) + (x3 + (4 + x5)), a value a tick, a sum taking one off.
#[test]
fn tick_by_tick() {
    let text = [&[0x01, 0x00, 0x12, 0x12, 0x13, 1, 0x13, 2][..], &[0x12, 0x11, 3, 0x12, 0x13, 4, 0x11, 5]].concat();
    assert_eq!(marks(&text, 0..=12), [0, 1, 2, 2, 2, 3, 4, 4, 4, 4, 4, 4, 4]);
}

/// WHILE x0 < 5 DO x0 := x0 + 1: Less takes both values off, the store its one, so no turn goes higher than the first.
#[test]
fn turn_by_turn() {
    let text = [0x04, 0x23, 0x11, 0, 0x13, 5, 0x01, 0, 0x12, 0x11, 0, 0x13, 1];
    assert_eq!(marks(&text, 0..=30)[..4], [0, 1, 2, 2]);
    assert!(marks(&text, 2..=30).iter().all(|&mark| mark == 2));
}

/// A push with D values on the stack, a record with too few operands, a sum that is held: none of them raises the mark.
#[test]
fn ends_and_held_sums_raise_nothing() {
    let (loadi, add) = (|z: i32| record(0x40, z), record(0x42, 0));
    let cases = [
        (vec![], 0, Ran { end: End::Done, count: 0, mark: 0 }),
        (vec![loadi(1)], 0, Ran { end: End::Full, count: 1, mark: 0 }),
        (vec![loadi(1), loadi(2)], 1, Ran { end: End::Full, count: 2, mark: 1 }),
        (vec![loadi(i32::MAX), loadi(1), add], 2, Ran { end: End::Done, count: 3, mark: 2 }),
        (vec![loadi(i32::MIN), loadi(-1), add, loadi(3)], 2, Ran { end: End::Done, count: 4, mark: 2 }),
        (vec![loadi(1), add], 2, Ran { end: End::Short, count: 2, mark: 1 }),
        (vec![loadi(1), loadi(2), add, loadi(3)], 2, Ran { end: End::Done, count: 4, mark: 2 }),
    ];
    for (records, depth, ran) in cases {
        let run = |calls: &dyn Calls| calls.run_assembly(&records.concat(), &mut [0; 64], &mut vec![0; depth], 9);
        assert_eq!(both(&records, run), Ok(ran));
    }
}

/// Random texts, at budgets around each of their first ticks and at a random one.
#[test]
fn the_three_agree_within_d() {
    seeds::for_each_text(SEEDS, |text, random| {
        let Ok(compiled) = Compiled::of(text) else { return };
        let start = random.cells(64);
        for budget in (0..8).chain([random.budget()]) {
            assert!(u64::from(told(text, &compiled, &start, budget).mark) <= compiled.depth);
        }
    });
}
