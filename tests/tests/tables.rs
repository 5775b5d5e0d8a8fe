//! W4, the test of a table: every entry at every place of some tables, and random tables, beside the simple
//! interpreter.

use profile_tests::answers::{Answer, Refusal};
use profile_tests::both::both;
use profile_tests::generator::{self, Random};
use profile_tests::{model, seeds};

const TABLES: u64 = 4000;

/// What the calls that take a table find in it: loading and reading back with a memory that fits the nonzero entries,
/// and going back from no records.
fn found(table: &[u8]) -> Answer<usize> {
    let (store, memory) = ([5; 64], vec![7; 2 + model::named(table)]);
    let (load, read, ..) = both(&table, |calls| {
        let (mut loaded, mut back) = (memory.clone(), store);
        let load = calls.load(table, &store, 1, &mut loaded);
        let read = calls.read_back(table, &memory, 1, &mut back);
        (load, read, loaded, back, calls.go_back(&[], table, &mut []))
    });
    assert_eq!(load, read, "{table:?}");
    load
}

const NO_TABLE: Answer<usize> = Err(Refusal(12, 0));

/// Of all bytes at a place, that of the table passes, and another may only where it makes it a table of one name more
/// or less.
#[test]
fn every_entry_at_every_place() {
    for n in [0, 1, 7, 63, 64] {
        let table = generator::table(&mut Random::new(n as u64), n);
        for v in 0..64 {
            let passing: Vec<usize> = (0..=255)
                .filter(|&entry| {
                    let mut table = table.clone();
                    table[v] = entry as u8;
                    found(&table) != NO_TABLE
                })
                .collect();
            let want = match table[v] as usize {
                0 => vec![0, n + 1],
                last if last == n => vec![0, n],
                entry => vec![entry],
            };
            assert_eq!(passing, want, "{n} names, place {v}");
        }
    }
}

/// Any number of names, and then an entry changed: to another that is there, to one above 64, to anything.
#[test]
fn random_tables() {
    let mut passed = 0;
    seeds::for_each(TABLES, |random| {
        let n = random.below(65);
        let mut table = generator::table(random, n);
        assert_eq!(found(&table), Ok(n));
        for _ in 0..random.below(3) {
            let v = random.below(64);
            table[v] = match random.below(3) {
                0 => table[random.below(64)],
                1 => 65 + random.below(191) as u8,
                _ => random.below(66) as u8,
            };
        }
        passed += u64::from(found(&table) != NO_TABLE);
    });
    if seeds::all() {
        assert!((TABLES / 4..TABLES * 3 / 4).contains(&passed), "{passed} of the changed tables pass");
    }
}
