//! Random texts, codes and tables: the libraries and the simple interpreter answer alike, on every lent buffer.

use profile_tests::answers::{memory_cells, Calls, FRESH};
use profile_tests::both::{alike, both, Compiled};
use profile_tests::calls::Libraries;
use profile_tests::foreign::{self, Foreign};
use profile_tests::generator::Random;
use profile_tests::model::{self, Held};
use profile_tests::seeds;

const SEEDS: u64 = 4000;

/// Enough of these runs held a sum at each limit.
fn enough(held: Held) {
    if seeds::all() {
        assert!(held.least() > 100, "{held:?}");
    }
}

#[test]
fn read() {
    seeds::for_each_text(SEEDS, |text, _| {
        alike(&text, |calls| calls.read(text));
    });
}

#[test]
fn run_source() {
    let mut held = Held::default();
    seeds::for_each_text(SEEDS, |text, random| {
        let length = random.lent_length();
        let (start, budget) = (random.cells(length), random.budget());
        alike(&(text, &start, budget), |calls| {
            let mut store = start.clone();
            (calls.run_source(text, &mut store, budget), store)
        });
        held.add_run(model::by_source(text, &mut start.clone(), budget));
    });
    enough(held);
}

#[test]
fn assemble_and_compile() {
    seeds::for_each_text(SEEDS, |text, random| {
        let room = both(&text, |calls| calls.read(text)).map_or(50, |sizes| sizes.bytes());
        let length = if random.one_in(8) { random.below(room + 5) } else { room + random.below(9) };
        let start = random.bytes(length);
        alike(&(text, length), |calls| {
            let mut out = start.clone();
            (calls.assemble(text, &mut out), out)
        });

        let length = random.lent_length();
        let lent = random.bytes(length);
        alike(&(text, start.len(), length), |calls| {
            let (mut code, mut table) = (start.clone(), lent.clone());
            (calls.compile(text, &mut code, &mut table), code, table)
        });
    });
}

#[test]
fn the_four_calls_in_a_row() {
    seeds::for_each_text(SEEDS, |text, random| {
        let Ok(Compiled { code, depth, cells, .. }) = Compiled::of(text) else { return };
        let start = random.cells(64);
        let budget = random.budget();
        let (mut code, mut table) = (random.bytes(code.len()), random.bytes(64));
        let (mut memory, n) = (random.cells(memory_cells(depth, cells)), cells as usize);
        let (mut store, mut by_rules) = (start.clone(), start);
        assert!(Libraries.compile(text, &mut code, &mut table).is_ok());
        assert_eq!(Libraries.load(&table, &store, depth, &mut memory), Ok(n));
        let ran = Libraries.run_machine(&code, &mut memory, depth, cells, budget);
        assert_eq!(Libraries.read_back(&table, &memory, depth, &mut store), Ok(n));
        assert_eq!(ran, Libraries.run_source(text, &mut by_rules, budget));
        assert_eq!(store, by_rules);
    });
}

/// Machine code of our compiler, as it is or damaged, or anything.
fn machine_code(text: &[u8], random: &mut Random) -> Vec<u8> {
    match (Compiled::of(text), random.below(3)) {
        (Ok(Compiled { code, .. }), 0) => code,
        (Ok(Compiled { mut code, .. }), 1) if !code.is_empty() => {
            for _ in 0..1 + random.below(3) {
                let at = random.below(code.len());
                code[at] =
                    [0, 1, 0x50, 0x51, 0x52, 0x53, 0x54, 0x55, 0x56, 0xff, random.bits() as u8][random.below(11)];
            }
            code
        }
        _ => foreign::code(random, 0x50),
    }
}

/// Also code to which heights can be given, so that sums find their operands.
#[test]
fn foreign_machine_code() {
    let mut held = Held::default();
    seeds::for_each_text(2 * SEEDS, |text, random| {
        let (code, depth, n) = if random.one_in(2) {
            let Foreign { code, depth, cells } = Foreign::any(random);
            (code, depth, cells)
        } else {
            (machine_code(text, random), random.below(5) as u64, random.below(6) as u64)
        };
        let length = if random.one_in(20) { random.below(12) } else { memory_cells(depth, n) };
        let (start, budget) = (random.cells(length), random.budget());
        alike(&(&code, &start, depth, n, budget), |calls| {
            let mut memory = start.clone();
            (calls.start(&code, &mut memory, depth, n, budget), memory)
        });
        held.add_run(model::by_machine(&code, &mut start.clone(), depth, n, FRESH, budget));
    });
    enough(held);
}

/// The same in assembly.
#[test]
fn foreign_assembly() {
    let mut held = Held::default();
    seeds::for_each_text(2 * SEEDS, |_, random| {
        let (code, depth) = if random.one_in(2) {
            let foreign = Foreign::any(random);
            (foreign.assembly(), foreign.depth as usize)
        } else {
            (foreign::code(random, 0x40), random.below(6))
        };
        let cells = if random.one_in(30) { 63 } else { 64 };
        let (start, start_stack) = (random.cells(cells), random.cells(depth));
        let budget = random.budget();
        alike(&(&code, &start, &start_stack, budget), |calls| {
            let (mut store, mut stack) = (start.clone(), start_stack.clone());
            (calls.run_assembly(&code, &mut store, &mut stack, budget), store, stack)
        });
        held.add_run(model::by_assembly(&code, &mut start.clone(), &mut start_stack.clone(), budget));
    });
    enough(held);
}

#[test]
fn tables_and_going_back() {
    seeds::for_each_text(SEEDS, |text, random| {
        let (mut code, mut table) =
            Compiled::of(text).map_or((vec![], vec![0; 64]), |Compiled { code, table, .. }| (code, table));
        if random.one_in(3) {
            random.change_entry(&mut table);
        }
        if random.one_in(6) {
            random.change_byte(&mut code);
        }
        let room = if random.one_in(8) { random.below(code.len() + 1) } else { code.len() + random.below(7) };
        let start = random.bytes(room);
        alike(&(&code, &table, room), |calls| {
            let mut out = start.clone();
            (calls.go_back(&code, &table, &mut out), out)
        });

        let (n, depth) = (model::named(&table), random.below(4) as u64);
        let length = if random.one_in(10) { random.below(9) } else { memory_cells(depth, n as u64) };
        let (store, start) = (random.cells(64), random.cells(length));
        alike(&(&table, &store, depth, length), |calls| {
            let (mut memory, mut back) = (start.clone(), store.clone());
            let loaded = calls.load(&table, &store, depth, &mut memory);
            let read = calls.read_back(&table, &memory, depth, &mut back);
            (loaded, memory, read, back)
        });
    });
}
