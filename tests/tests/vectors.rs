//! Every vector, by the libraries and by the simple interpreter: a call's answer and every lent buffer, a text's print.

use std::collections::BTreeSet;

use profile_tests::answers::Calls;
use profile_tests::calls::Libraries;
use profile_tests::model::{self, Interpreter};
use profile_tests::programs;
use profile_tests::vectors::{self, Call};

/// Makes the call that a vector names, and compares what it gives and leaves.
type Walk = fn(&dyn Calls, &Call);

const WALKS: [(&str, Walk); 14] = [
    ("read", read),
    ("assemble", assemble),
    ("compile", compile),
    ("run_source", run_source),
    ("run_assembly", run_assembly),
    ("load", load),
    ("run_machine", run_machine),
    ("read_back", read_back),
    ("go_back", go_back),
    ("preview_source", preview_source),
    ("preview_machine", preview_machine),
    ("inspect", inspect),
    ("run_paired", run_paired),
    ("go_on", go_on),
];

/// Each line is walked, and each walk has a line.
fn walk(calls: &dyn Calls) {
    let mut walked = BTreeSet::new();
    for call in vectors::calls() {
        let found = WALKS.iter().find(|(name, _)| *name == call.name);
        let (name, walk) = found.unwrap_or_else(|| panic!("{call}, which no walk has"));
        walk(calls, &call);
        walked.insert(name);
    }
    for (name, _) in &WALKS {
        assert!(walked.contains(name), "no vector of {name}");
    }
}

#[test]
fn calls_by_the_libraries() {
    walk(&Libraries);
}

#[test]
fn calls_by_the_interpreter() {
    walk(&Interpreter);
}

#[test]
fn texts_by_the_program() {
    for (path, text, want) in vectors::texts() {
        assert_eq!(programs::show(&text), want, "{path}");
    }
}

#[test]
fn texts_by_the_interpreter() {
    for (path, text, want) in vectors::texts() {
        assert_eq!(model::show(&text), want, "{path}");
    }
}

fn read(calls: &dyn Calls, call: &Call) {
    assert_eq!(calls.read(&call.bytes("text")), call.sizes(), "{call}");
}

fn assemble(calls: &dyn Calls, call: &Call) {
    let mut out = call.bytes("out");
    let got = calls.assemble(&call.bytes("text"), &mut out);
    assert_eq!((got, out), (call.sizes(), call.bytes_after("out")), "{call}");
}

fn compile(calls: &dyn Calls, call: &Call) {
    let (mut out, mut table) = (call.bytes("out"), call.bytes("table"));
    let got = calls.compile(&call.bytes("text"), &mut out, &mut table);
    assert_eq!((got, out, table), (call.sizes(), call.bytes_after("out"), call.bytes_after("table")), "{call}");
}

fn run_source(calls: &dyn Calls, call: &Call) {
    let mut store = call.cells("store");
    let got = calls.run_source(&call.bytes("text"), &mut store, call.budget());
    assert_eq!((got, store), (call.ran(), call.cells_after("store")), "{call}");
}

fn run_assembly(calls: &dyn Calls, call: &Call) {
    let (mut store, mut stack) = (call.cells("store"), call.cells("stack"));
    let got = calls.run_assembly(&call.bytes("code"), &mut store, &mut stack, call.budget());
    assert_eq!((got, store, stack), (call.ran(), call.cells_after("store"), call.cells_after("stack")), "{call}");
}

fn load(calls: &dyn Calls, call: &Call) {
    let mut memory = call.cells("memory");
    let got = calls.load(&call.bytes("table"), &call.cells("store"), call.number("D"), &mut memory);
    assert_eq!((got, memory), (call.count("n"), call.cells_after("memory")), "{call}");
}

fn run_machine(calls: &dyn Calls, call: &Call) {
    let (code, mut memory) = (call.bytes("code"), call.cells("memory"));
    let got = calls.start(&code, &mut memory, call.number("D"), call.number("n"), call.budget());
    assert_eq!((got, memory), (call.piece(), call.cells_after("memory")), "{call}");
}

fn read_back(calls: &dyn Calls, call: &Call) {
    let mut store = call.cells("store");
    let got = calls.read_back(&call.bytes("table"), &call.cells("memory"), call.number("D"), &mut store);
    assert_eq!((got, store), (call.count("n"), call.cells_after("store")), "{call}");
}

fn go_back(calls: &dyn Calls, call: &Call) {
    let mut out = call.bytes("out");
    let got = calls.go_back(&call.bytes("code"), &call.bytes("table"), &mut out);
    assert_eq!((got, out), (call.count("records"), call.bytes_after("out")), "{call}");
}

/// A preview's store goes into `out`; what else it is lent stays.
fn preview_source(calls: &dyn Calls, call: &Call) {
    let (store, mut out) = (call.cells("store"), call.cells("out"));
    let got = calls.preview_source(&call.bytes("text"), &store, call.budget(), &mut out);
    assert_eq!((got, out, store), (call.ran(), call.cells_after("out"), call.cells("store")), "{call}");
}

fn preview_machine(calls: &dyn Calls, call: &Call) {
    let (memory, store, mut out) = (call.cells("memory"), call.cells("store"), call.cells("out"));
    let (code, table, depth) = (call.bytes("code"), call.bytes("table"), call.number("D"));
    let got = calls.preview_machine(&code, &memory, depth, &table, &store, call.budget(), &mut out);
    assert_eq!((got, out), (call.ran(), call.cells_after("out")), "{call}");
    assert_eq!((memory, store), (call.cells("memory"), call.cells("store")), "{call}");
}

fn inspect(calls: &dyn Calls, call: &Call) {
    let got = calls.inspect(&call.bytes("code"), call.number("D"), call.number("n"));
    assert_eq!(got, call.count("records"), "{call}");
}

fn run_paired(calls: &dyn Calls, call: &Call) {
    let (code, table, mut store) = (call.bytes("code"), call.bytes("table"), call.cells("store"));
    let got = calls.run_paired(&code, &table, &mut store, call.number("D"), call.budget());
    assert_eq!((got, store), (call.ran(), call.cells_after("store")), "{call}");
}

fn go_on(calls: &dyn Calls, call: &Call) {
    let (code, mut memory) = (call.bytes("code"), call.cells("memory"));
    let (depth, n) = (call.number("D"), call.number("n"));
    let got = calls.go_on(&code, &mut memory, depth, n, call.state(), call.budget());
    assert_eq!((got, memory), (call.piece(), call.cells_after("memory")), "{call}");
}
