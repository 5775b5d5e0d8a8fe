//! W3, previews: as the simple interpreter has them, as the runs that they preview, and with what is lent as it was.

use profile_tests::answers::{memory_cells, Answer, Ran};
use profile_tests::both::{both, Compiled};
use profile_tests::{foreign, model, seeds};

const SEEDS: u64 = 4000;

/// What the cells lent for a preview's store hold before it.
const LENT: [i32; 64] = [7; 64];

/// An answer, and a store.
type Left = (Answer<Ran>, Vec<i32>);

fn of_source(text: &[u8], store: &[i32], budget: u32) -> Left {
    both(&(text, store, budget), |calls| {
        let (lent, mut out) = (store.to_vec(), LENT.to_vec());
        let ran = calls.preview_source(text, &lent, budget, &mut out);
        assert_eq!(lent, store);
        (ran, out)
    })
}

#[test]
fn of_texts() {
    seeds::for_each_text(SEEDS, |text, random| {
        let length = random.lent_length();
        let _ = of_source(text, &random.cells(length), random.budget());
    });
}

/// A loaded machine: what a preview is lent.
#[derive(Clone, Debug, PartialEq)]
struct Loaded {
    code: Vec<u8>,
    memory: Vec<i32>,
    depth: u64,
    table: Vec<u8>,
    store: Vec<i32>,
}

impl Loaded {
    /// A text compiled, and a store loaded, where the text is accepted.
    fn of(text: &[u8], store: Vec<i32>) -> Option<Loaded> {
        let compiled = Compiled::of(text).ok()?;
        let memory = compiled.load(&store);
        let Compiled { code, table, depth, .. } = compiled;
        Some(Loaded { code, memory, depth, table, store })
    }

    fn preview(&self, budget: u32) -> Left {
        both(&(budget, self), |calls| {
            let (lent, mut out) = (self.clone(), LENT.to_vec());
            let Loaded { code, memory, depth, table, store } = &lent;
            let ran = calls.preview_machine(code, memory, *depth, table, store, budget, &mut out);
            assert_eq!(lent, *self);
            (ran, out)
        })
    }

    /// The same by the calls that it previews, made on copies.
    fn run(&self, budget: u32) -> Left {
        both(&(budget, self), |calls| {
            let Loaded { code, mut memory, depth, table, mut store } = self.clone();
            let n = model::named(&table);
            let ran = calls.run_machine(&code, &mut memory, depth, n as u64, budget);
            assert_eq!(calls.read_back(&table, &memory, depth, &mut store), Ok(n));
            (ran, store)
        })
    }
}

/// At rising budgets, each after the previews before it: both previews, the run of the text and that of the machine.
#[test]
fn of_loaded_machines() {
    seeds::for_each_text(SEEDS, |text, random| {
        let start = random.cells(64);
        let Some(machine) = Loaded::of(text, start.clone()) else { return };
        for budget in (0..8).chain([random.budget()]) {
            let got = machine.preview(budget);
            assert_eq!(got, of_source(text, &start, budget));
            let run = both(&(text, budget), |calls| {
                let mut store = start.clone();
                (calls.run_source(text, &mut store, budget), store)
            });
            assert_eq!(got, run);
            assert_eq!(got, machine.run(budget));
        }
    });
}

/// Code, table, memory and store that need not belong together, and may have any length.
#[test]
fn of_foreign_machines() {
    seeds::for_each_text(SEEDS, |text, random| {
        let mut machine = match Loaded::of(text, random.cells(64)) {
            Some(machine) if random.one_in(2) => machine,
            _ => {
                let n = random.below(6);
                let table = (0..64).map(|v| if v < n { 1 + v as u8 } else { 0 }).collect();
                let depth = random.below(5) as u64;
                let memory = random.cells(memory_cells(depth, n as u64));
                Loaded { code: foreign::code(random, 0x50), memory, depth, table, store: vec![] }
            }
        };
        let length = random.lent_length();
        machine.store = random.cells(length);
        if random.one_in(6) {
            let length = random.below(12);
            machine.memory = random.cells(length);
        }
        if random.one_in(6) {
            random.change_entry(&mut machine.table);
        }
        if random.one_in(12) {
            machine.table.pop();
        }
        if random.one_in(6) {
            random.change_byte(&mut machine.code);
        }
        if random.one_in(12) {
            machine.code.push(0x52);
        }
        if random.one_in(12) {
            machine.depth = 60 + random.below(10) as u64;
        }
        let budget = random.budget();
        let got = machine.preview(budget);
        if got.0.is_ok() {
            assert_eq!(got, machine.run(budget));
        }
    });
}
