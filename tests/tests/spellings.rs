//! W1, constants in either spelling: a text answers every call that takes a text as its other spellings do.

use profile_tests::answers::{End, Ran, Sizes};
use profile_tests::both::both;
use profile_tests::model::{self, Command, Condition, Expression};
use profile_tests::seeds;

/// Which constants, of those that fit, are spelled with one byte.
type Short<'a> = &'a mut dyn FnMut() -> bool;

fn expression(part: &Expression, short: Short) -> Vec<u8> {
    match part {
        Expression::Constant(z) if i8::try_from(*z).is_ok() && short() => vec![0x13, *z as u8],
        Expression::Constant(z) => [vec![0x10], z.to_le_bytes().to_vec()].concat(),
        Expression::Variable(v) => vec![0x11, *v],
        Expression::Plus(a, b) => [vec![0x12], expression(a, short), expression(b, short)].concat(),
    }
}

fn condition(part: &Condition, short: Short) -> Vec<u8> {
    match part {
        Condition::Bc(value) => vec![0x20, *value as u8],
        Condition::Not(b) => [vec![0x21], condition(b, short)].concat(),
        Condition::And(b, c) => [vec![0x22], condition(b, short), condition(c, short)].concat(),
        Condition::Less(a, b) => [vec![0x23], expression(a, short), expression(b, short)].concat(),
    }
}

fn command(part: &Command, short: Short) -> Vec<u8> {
    match part {
        Command::Skip => vec![0x00],
        Command::Assign(v, a) => [vec![0x01, *v], expression(a, short)].concat(),
        Command::Sequence(c, d) => [vec![0x02], command(c, short), command(d, short)].concat(),
        Command::If(b, c, d) => [vec![0x03], condition(b, short), command(c, short), command(d, short)].concat(),
        Command::While(b, c) => [vec![0x04], condition(b, short), command(c, short)].concat(),
    }
}

/// What the calls that take a text give and leave.
fn answers(text: &[u8], start: &[i32], budget: u32) -> impl PartialEq + std::fmt::Debug {
    both(&(text, start, budget), |calls| {
        let (mut out, mut code, mut table, mut store) = (vec![7; 20480], vec![7; 20480], [7; 64], start.to_vec());
        let sizes = calls.read(text);
        let assembled = calls.assemble(text, &mut out);
        let compiled = calls.compile(text, &mut code, &mut table);
        let ran = calls.run_source(text, &mut store, budget);
        (sizes, assembled, out, compiled, (code, table), ran, store)
    })
}

#[test]
fn random_texts() {
    seeds::for_each_text(2000, |text, random| {
        let Ok(tree) = model::read_text(text) else { return };
        let (start, budget) = (random.cells(64), random.budget());
        let want = answers(text, &start, budget);
        let [full, some, shortest] =
            [command(&tree, &mut || false), command(&tree, &mut || random.one_in(2)), command(&tree, &mut || true)];
        assert!(shortest.len() <= some.len() && some.len() <= full.len());
        for other in [full, some, shortest].iter().filter(|other| other.len() <= 4096) {
            assert_eq!(answers(other, &start, budget), want);
        }
    });
}

/// x0 := z, for each z that one byte holds: LOADI z and STORE 0 in both spellings, and the value itself in x0.
#[test]
fn each_value() {
    for z in -128..=127i32 {
        let full = [vec![0x01, 0x00, 0x10], z.to_le_bytes().to_vec()].concat();
        for text in [full, vec![0x01, 0x00, 0x13, z as u8]] {
            let (sizes, out, ran, store) = both(&text, |calls| {
                let (mut out, mut store) = ([7; 10], [7; 64]);
                let sizes = calls.assemble(&text, &mut out);
                (sizes, out, calls.run_source(&text, &mut store, 2), store)
            });
            assert_eq!(sizes, Ok(Sizes { records: 2, depth: 1, cells: 1 }), "{z}");
            assert_eq!(out[..6], [&[0x40], &z.to_le_bytes()[..], &[0x43]].concat(), "{z}");
            assert_eq!(ran, Ok(Ran { end: End::Done, count: 2, mark: 1 }), "{z}");
            assert_eq!((store[0], &store[1..]), (z, &[7; 63][..]), "{z}");
        }
    }
}
