//! Bad input gets its numbered refusal with its place, and nothing is changed: by the libraries and by the simple
//! interpreter.

use profile_tests::answers::{Answer, End, Piece, Ran, Refusal, Sizes, State};
use profile_tests::both::both;

fn refused<T>(number: u8, place: u32) -> Answer<T> {
    Err(Refusal(number, place))
}

fn read(text: &[u8]) -> Answer<Sizes> {
    both(&text, |calls| calls.read(text))
}

/// A run of the text with so many cells lent for the store: its answer; where it declines, the store stays.
fn run_source(text: &[u8], cells: usize) -> Answer<Ran> {
    both(&(text, cells), |calls| {
        let mut store = vec![7; cells];
        let answer = calls.run_source(text, &mut store, 1000);
        assert!(answer.is_ok() || store == vec![7; cells]);
        answer
    })
}

/// Both calls that take a text refuse it alike, and the store stays.
fn declines(text: &[u8], number: u8, place: u32) {
    assert_eq!(read(text), refused(number, place), "{} bytes", text.len());
    assert_eq!(run_source(text, 64), refused(number, place), "{} bytes", text.len());
}

#[test]
fn examples_of_document_01() {
    declines(&[0x01, 0x00], 1, 2);
    declines(&[0x7f], 2, 0);
    declines(&[0x01, 0x40, 0x11, 0x00], 3, 1);
    declines(&[0x02; 65], 4, 64);
    declines(&[0x00, 0x00], 5, 1);
    declines(&[0x00; 4097], 6, 0);
}

#[test]
fn order_at_a_construct() {
    declines(&[], 1, 0);
    declines(&[0x02; 64], 1, 64);
    let mut deep = vec![0x02; 64];
    deep.push(0x7f);
    declines(&deep, 4, 64);
    declines(&[0x01, 0x40], 3, 1);
    declines(&[0x04, 0x20, 0x02], 3, 2);
    declines(&[0x04, 0x20], 1, 2);
    declines(&[0x01, 0x00, 0x10, 1, 2, 3], 1, 6);
}

/// A one-byte constant (document 02, W1) declines as any operand does, and begins no condition and no command.
#[test]
fn one_byte_constants() {
    declines(&[0x01, 0x00, 0x13], 1, 3);
    declines(&[0x01, 0x00, 0x12, 0x13, 0x80, 0x13], 1, 6);
    declines(&[0x01, 0x00, 0x13, 0x80, 0x00], 5, 4);
    declines(&[0x04, 0x13, 0x01, 0x00], 2, 1);
    declines(&[0x13], 2, 0);
    let mut deep = [vec![0x01, 0x00], vec![0x12; 63]].concat();
    deep.extend([0x13, 0x00]);
    declines(&deep, 4, 65);
}

#[test]
fn every_single_byte() {
    for byte in 0..=255u8 {
        match byte {
            0x00 => assert_eq!(read(&[byte]), Ok(Sizes { records: 0, depth: 0, cells: 0 })),
            0x01..=0x04 => declines(&[byte], 1, 1),
            _ => declines(&[byte], 2, 0),
        }
    }
}

#[test]
fn over_long_texts() {
    for length in [4097, 5000, 65536, 1 << 20] {
        declines(&vec![0x02; length], 6, 0);
    }
}

#[test]
fn stores_of_any_length() {
    for length in (0..=130).filter(|&n| n != 64) {
        assert_eq!(run_source(&[0x00], length), refused(8, 0));
        assert_eq!(run_source(&[0x7f], length), refused(2, 0));
    }
}

/// The code of x0 := x1 + 5, which names x1 with address 2 and x0 with address 1.
const PAIRED: [[u8; 5]; 4] = [[0x51, 2, 0, 0, 0], [0x50, 5, 0, 0, 0], [0x52, 0, 0, 0, 0], [0x53, 1, 0, 0, 0]];

/// The same with records that are none, and the index of the first of them.
fn with_bad_records() -> impl Iterator<Item = (u32, Vec<u8>)> {
    let bad = [[0x57, 0, 0, 0, 0], [0x41, 1, 0, 0, 0], [0x52, 1, 0, 0, 0], [0x51, 0, 0, 0, 0], [0x53, 1, 1, 0, 0]];
    (0..4).flat_map(move |index| {
        bad.map(|record| {
            let mut records = PAIRED;
            records[index..].fill(record);
            (index as u32, records.concat())
        })
    })
}

/// A table whose first entries are these.
fn table(first: &[u8]) -> Vec<u8> {
    [first, &vec![0; 64 - first.len()]].concat()
}

/// A paired run of these, with so many cells lent for the store: its answer; where it declines, the store stays.
fn paired(code: &[u8], table: &[u8], cells: usize, depth: u64) -> Answer<Ran> {
    both(&(code, table, cells, depth), |calls| {
        let mut store = vec![7; cells];
        let answer = calls.run_paired(code, table, &mut store, depth, 1000);
        assert!(answer.is_ok() || store == vec![7; cells]);
        answer
    })
}

#[test]
fn paired_runs_of_any_lengths() {
    let code = PAIRED.concat();
    let done = Ok(Ran { end: End::Done, count: 4, mark: 2 });
    assert_eq!(paired(&code, &table(&[1, 2]), 64, 2), done);
    for bytes in 1..5 {
        assert_eq!(paired(&code[bytes..], &table(&[1, 2]), 64, 2), refused(9, 0));
    }
    assert_eq!(paired(&[0x54, 0, 0, 0, 0].repeat(4097), &table(&[]), 64, 2), refused(9, 0));
    for length in (0..=130).filter(|&n| n != 64) {
        assert_eq!(paired(&code, &table(&[1, 2]), length, 2), refused(8, 0));
        assert_eq!(paired(&code, &vec![0; length], 64, 2), refused(8, 0));
    }
    for depth in [65, 66, 128, 256, 1 << 32, u64::MAX] {
        assert_eq!(paired(&code, &table(&[1, 2]), 64, depth), refused(11, 0));
    }
}

/// Tables that are none, records that are none and addresses that the table has not, the first of them at its index.
#[test]
fn paired_runs_of_any_tables_and_records() {
    let code = PAIRED.concat();
    for first in [&[1, 1][..], &[2], &[1, 3], &[1, 2, 2], &[1, 2, 65], &[1, 2, 255]] {
        assert_eq!(paired(&code, &table(first), 64, 2), refused(12, 0), "{first:?}");
    }
    assert_eq!(paired(&code, &table(&[1]), 64, 2), refused(10, 0));
    for (index, code) in with_bad_records() {
        assert_eq!(paired(&code, &table(&[1, 2]), 64, 2), refused(10, index), "{code:02x?}");
    }
}

/// Addresses that come up in another order, addresses too few, and records that are not reached.
#[test]
fn paired_runs_that_disagree() {
    let [load, constant, sum, store] = PAIRED;
    let over = [0x54, 1, 0, 0, 0];
    for (records, names) in [
        (vec![load, constant, sum, [0x53, 2, 0, 0, 0]], 2),
        (vec![[0x51, 1, 0, 0, 0], constant, sum, [0x53, 2, 0, 0, 0]], 2),
        (vec![constant, store], 2),
        (vec![load, constant, sum, store], 3),
        (vec![over, load, constant, store, load], 2),
        (vec![constant], 1),
        (vec![], 1),
    ] {
        let table = table(&(1..=names).collect::<Vec<u8>>());
        assert_eq!(paired(&records.concat(), &table, 64, 2), refused(14, 0), "{records:02x?}");
    }
    let done = Ok(Ran { end: End::Done, count: 3, mark: 1 });
    assert_eq!(paired(&[over, load, constant, store].concat(), &table(&[1, 2]), 64, 2), done);
}

/// What a paired run is lent with the faults of these refusals: 10 at record 2.
fn faulty(numbers: [u8; 2]) -> (Vec<u8>, Vec<u8>, usize, u64) {
    let has = |number| numbers.contains(&number);
    let (mut records, mut table) = (PAIRED, table(&[1, 2]));
    if has(14) {
        (records[0][1], records[3][1]) = (1, 2);
    }
    if has(10) {
        records[2][1] = 1;
    }
    if has(12) {
        table[2] = 2;
    }
    let bytes = if has(9) { 19 } else { 20 };
    (records.concat()[..bytes].to_vec(), table, if has(8) { 63 } else { 64 }, if has(11) { 65 } else { 2 })
}

/// Each number alone, and the earlier of each two.
#[test]
fn order_of_a_paired_run() {
    let order = [(9, 0), (8, 0), (12, 0), (10, 2), (14, 0), (11, 0)];
    for (i, &(number, place)) in order.iter().enumerate() {
        for &(other, _) in &order[i..] {
            let (code, table, cells, depth) = faulty([number, other]);
            assert_eq!(paired(&code, &table, cells, depth), refused(number, place), "{number} and {other}");
        }
    }
}

/// The machine of PAIRED, with D 2 and n 2, between its second record and its third.
const PAUSED: State = State { position: 2, size: 2, count: 2, mark: 2 };

/// Going on with so many cells lent for the memory, beside a run from a fresh machine, which declines alike but for 15.
/// Where they decline, the memory stays, and so does the state, which the calls see to.
fn going_on(code: &[u8], lent: usize, depth: u64, n: u64, from: State) -> Answer<Piece> {
    both(&(code, lent, depth, n, from), |calls| {
        let before = vec![7; lent];
        let [mut memory, mut other] = [before.clone(), before.clone()];
        let answer = calls.go_on(code, &mut memory, depth, n, from, 1000);
        let fresh = calls.start(code, &mut other, depth, n, 1000);
        match (answer, fresh) {
            (Ok(_), Ok(_)) => {}
            (Err(Refusal(15, _)), Ok(_)) => assert_eq!(memory, before),
            _ => assert_eq!((answer, &memory, &other), (fresh, &before, &before)),
        }
        answer
    })
}

#[test]
fn going_on_with_any_lengths() {
    let code = PAIRED.concat();
    let done = Ok((Ran { end: End::Done, count: 4, mark: 2 }, None));
    assert_eq!(going_on(&code, 5, 2, 2, PAUSED), done);
    for bytes in 1..5 {
        assert_eq!(going_on(&code[bytes..], 5, 2, 2, PAUSED), refused(9, 0));
    }
    assert_eq!(going_on(&[0x54, 0, 0, 0, 0].repeat(4097), 5, 2, 2, PAUSED), refused(9, 0));
    for lent in (0..=130).filter(|&n| n != 5) {
        assert_eq!(going_on(&code, lent, 2, 2, PAUSED), refused(11, 0), "{lent} cells");
    }
    for many in [65, 66, 128, 256, 1 << 32, u64::MAX - 1, u64::MAX] {
        let lent = (many.wrapping_add(3) % 256) as usize;
        assert_eq!(going_on(&code, lent, many, 2, PAUSED), refused(11, 0), "D {many}");
        assert_eq!(going_on(&code, lent, 2, many, PAUSED), refused(11, 0), "n {many}");
    }
}

/// Records that are none, the first of them at its index; addresses above n, whatever n is.
#[test]
fn going_on_with_any_records() {
    for (index, code) in with_bad_records() {
        assert_eq!(going_on(&code, 5, 2, 2, PAUSED), refused(10, index), "{code:02x?}");
    }
    assert_eq!(going_on(&PAIRED.concat(), 4, 2, 1, PAUSED), refused(10, 0));
    assert_eq!(going_on(&[0x51, 65, 0, 0, 0], 68, 2, 65, PAUSED), refused(11, 0));
    assert_eq!(going_on(&[0x51, 66, 0, 0, 0], 68, 2, 65, PAUSED), refused(10, 0));
}

/// States that PAIRED with D 2 and a budget of 1000 can't go on from: by position, stack size, mark and count.
fn no_states() -> [Vec<State>; 4] {
    let above = |most: u32| [1, 2, 1 << 8, 1 << 16, 1 << 31, u32::MAX - most].map(|more| most + more);
    let sizes = above(2).map(|size| State { size, ..PAUSED });
    let marks = above(2).map(|mark| State { mark, ..PAUSED });
    let both = above(2).map(|mark| State { size: mark, mark, ..PAUSED });
    let counts = [999, 998, 1, 0].map(|left| State { count: u32::MAX - left, ..PAUSED });
    [
        above(4).map(|position| State { position, ..PAUSED }).to_vec(),
        [&sizes[..], &[State { mark: 1, ..PAUSED }, State { mark: 0, ..PAUSED }]].concat(),
        [marks, both].concat(),
        counts.to_vec(),
    ]
}

/// 15 under each of its conditions, and at their limits not.
#[test]
fn going_on_from_any_state() {
    for from in no_states().concat() {
        assert_eq!(going_on(&PAIRED.concat(), 5, 2, 2, from), refused(15, 0), "{from:?}");
    }
    for from in [
        State { position: 4, ..PAUSED },
        State { size: 0, ..PAUSED },
        State { size: 0, mark: 0, ..PAUSED },
        State { count: 0, ..PAUSED },
        State { count: u32::MAX - 1000, ..PAUSED },
    ] {
        assert!(going_on(&PAIRED.concat(), 5, 2, 2, from).is_ok(), "{from:?}");
    }
}

/// Each number alone, and the earlier of each two, 15 by each of its conditions.
#[test]
fn order_of_going_on() {
    let order = [(9, 0), (10, 2), (11, 0), (15, 0)];
    for (i, &(number, place)) in order.iter().enumerate() {
        for &(other, _) in &order[i..] {
            let has = |one| [number, other].contains(&one);
            let mut records = PAIRED;
            records[2][1] = u8::from(has(10));
            let (bytes, lent) = (if has(9) { 19 } else { 20 }, if has(11) { 6 } else { 5 });
            for from in if has(15) { no_states().concat() } else { vec![PAUSED] } {
                let got = going_on(&records.concat()[..bytes], lent, 2, 2, from);
                assert_eq!(got, refused(number, place), "{number} and {other}: {from:?}");
            }
        }
    }
}
