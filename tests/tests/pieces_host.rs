//! The C host of `examples/pieces.c`, built with the address and undefined-behaviour sanitizers: its output is what the
//! simple interpreter runs in the same pieces.

use std::fmt::Write;
use std::path::Path;

use profile_tests::answers::{Answer, Calls, Ran, State};
use profile_tests::both::Compiled;
use profile_tests::model::{self, Interpreter};
use profile_tests::programs::{self, Output};
use profile_tests::{seeds, vectors};

/// The named variables, each between these.
fn variables(table: &[u8], store: &[i32], before: &str, after: &str) -> String {
    let named = store.iter().enumerate().filter(|(v, _)| table[*v] != 0);
    named.map(|(v, value)| format!("{before}{v} {value}{after}")).collect()
}

/// What is printed of a piece, before the variables.
fn line(budget: u32, ran: Ran, pause: Option<State>) -> String {
    let at = pause.map(|state| format!(" position {} stack {}", state.position, state.size));
    format!("piece {budget} {} {} mark {}{}", model::printed(ran.end), ran.count, ran.mark, at.unwrap_or_default())
}

/// Prints the pieces of a text, up to the first that is not spent or is refused.
fn print(text: &[u8], budgets: &[u32], out: &mut String) -> Answer<()> {
    let compiled = Compiled::of(text)?;
    let (mut store, mut memory) = (vec![0; 64], compiled.load(&[0; 64]));
    let Compiled { code, table, depth, cells } = compiled;
    writeln!(out, "records {} stack {depth} cells {cells}", code.len() / 5).unwrap();

    let mut from = None;
    for &budget in budgets {
        let (ran, pause) = match from {
            None => Interpreter.start(&code, &mut memory, depth, cells, budget)?,
            Some(state) => Interpreter.go_on(&code, &mut memory, depth, cells, state, budget)?,
        };
        Interpreter.read_back(&table, &memory, depth, &mut store)?;
        writeln!(out, "{}{}", line(budget, ran, pause), variables(&table, &store, " x", "")).unwrap();
        if pause.is_none() {
            break;
        }
        from = pause;
    }
    out.push_str(&variables(&table, &store, "", "\n"));
    Ok(())
}

/// What the host prints, and its exit status.
fn expected(text: &[u8], budgets: &[u32]) -> (i32, String) {
    let mut out = String::new();
    match print(text, budgets, &mut out) {
        Ok(()) => (0, out),
        Err(refusal) => (1, out + &format!("{refusal}\n")),
    }
}

fn host(path: &Path, budgets: &[u32]) -> (i32, String) {
    let words: Vec<String> = budgets.iter().map(u32::to_string).collect();
    let arguments: Vec<&Path> = std::iter::once(path).chain(words.iter().map(Path::new)).collect();
    let Output { status, out, error } = programs::run("pieces", &arguments, &[]);
    assert_eq!(error, "", "{path:?} {budgets:?}");
    (status, out)
}

fn example(name: &str) -> std::path::PathBuf {
    Path::new(env!("CARGO_MANIFEST_DIR")).join("../examples").join(name)
}

/// The budgets that examples/README.md gives.
#[test]
fn the_example() {
    let want = std::fs::read_to_string(example("pieces.out")).unwrap();
    assert_eq!(host(&example("ramp.text"), &[30; 6]), (0, want));
}

/// Each cut of the example's 146 records in two, and one record more.
#[test]
fn every_cut_of_the_example() {
    let path = example("ramp.text");
    let text = std::fs::read(&path).unwrap();
    for first in 0..=147 {
        let budgets = [first, 146 - first.min(146), 1];
        assert_eq!(host(&path, &budgets), expected(&text, &budgets), "{budgets:?}");
    }
}

#[test]
fn texts() {
    seeds::for_each_of(&vectors::texts(), |(path, text, _), random| {
        let budgets: Vec<u32> = (0..1 + random.below(12)).map(|_| random.below(40) as u32).collect();
        assert_eq!(host(path.as_ref(), &budgets), expected(text, &budgets), "{path}: {budgets:?}");
    });
}

/// A total of 4294967295 is taken; with one more the last piece is refused, and what was printed before it stays.
#[test]
fn the_last_budgets() {
    let path = example("ramp.text");
    let text = std::fs::read(&path).unwrap();
    for (last, status) in [(4294967195, 0), (4294967196, 1), (4294967295, 1)] {
        let (got, want) = (host(&path, &[50, 50, last]), expected(&text, &[50, 50, last]));
        assert_eq!((got.0, &got), (status, &want), "{last}");
    }
}

/// No budget, words that are none, and a file that is not there: nothing is printed, and they are named.
#[test]
fn wrong_words() {
    let path = example("ramp.text");
    let run = |words: &[&str]| {
        let arguments: Vec<&Path> = words.iter().map(Path::new).collect();
        let Output { status, out, error } = programs::run("pieces", &arguments, &[]);
        assert_eq!((status, out.as_str()), (2, ""), "{words:?}");
        error
    };
    let ramp = path.to_str().unwrap();
    assert_eq!(run(&[ramp]), "usage: pieces FILE BUDGET...\n");
    for word in ["", "-1", "+1", " 1", "1 ", "x", "1x", "4294967296", "18446744073709551617", "99999999999999999999"] {
        assert_eq!(run(&[ramp, "1", word, "1"]), format!("{word}: no budget\n"));
    }
    assert_eq!(run(&["no-such-file", "1"]), "no-such-file: No such file or directory\n");
}
