//! The C host of `examples/host.c`, built with the address and undefined-behaviour sanitizers, over all vectors' texts
//! and damaged ones: its output is what the simple interpreter compiles.

use std::fmt::Write;

use profile_tests::answers::{Answer, Calls, Sizes};
use profile_tests::model::Interpreter;
use profile_tests::programs::{self, Output};
use profile_tests::{generator, seeds, vectors};

fn records(name: &str, code: &[u8]) -> String {
    code.chunks(5).map(|record| line(name, record)).collect()
}

fn line(name: &str, bytes: &[u8]) -> String {
    let mut line = name.to_string();
    for byte in bytes {
        write!(line, " {byte:02x}").unwrap();
    }
    line + "\n"
}

/// What the interpreter compiles, printed.
fn compiled(text: &[u8]) -> Answer<String> {
    let sizes = Interpreter.read(text)?;
    let (mut code, mut table, mut assembly) = (vec![0; sizes.bytes()], vec![0; 64], vec![0; sizes.bytes()]);
    Interpreter.compile(text, &mut code, &mut table)?;
    Interpreter.assemble(text, &mut assembly)?;
    let Sizes { records: count, depth, cells } = sizes;
    let first = format!("records {count} stack {depth} cells {cells}\n");
    Ok(first + &records("machine", &code) + &line("table", &table) + &records("assembly", &assembly))
}

fn check(text: &[u8], name: &str) {
    let file = programs::file(text);
    let Output { status, out, error } = programs::run("host", &[file.path()], &[]);
    let expected = compiled(text).map_or_else(|refusal| (1, format!("{refusal}\n")), |out| (0, out));
    assert_eq!((status, out), expected, "{name}");
    assert_eq!(error, "", "{name}");
}

#[test]
fn texts() {
    for (path, text, _) in vectors::texts() {
        check(&text, &path);
    }
}

#[test]
fn damaged_texts() {
    let texts: Vec<_> = vectors::texts().into_iter().filter(|(_, text, _)| !text.is_empty()).collect();
    seeds::for_each_of(&texts, |(path, text, _), random| {
        for _ in 0..3 {
            check(&generator::damaged(text.clone(), random), &format!("{path}, damaged"));
        }
    });
}

#[test]
fn a_file_that_is_not_there() {
    let Output { status, out, error } = programs::run("host", &["no-such-file".as_ref()], &[]);
    assert_eq!((status, out.as_str()), (2, ""));
    assert_eq!(error, "no-such-file: No such file or directory\n");
}
