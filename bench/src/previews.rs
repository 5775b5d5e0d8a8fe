//! Previews beside the runs that they preview, made on copies by the caller.

use std::hint::black_box;

use profile_tests::answers::{Answer, Calls, Ran};
use profile_tests::calls::Libraries;

use crate::texts::Text;
use crate::timing::{compare, heading};
use crate::translations::compiled;

/// So many calls take about as long, whatever the budget.
pub fn count(ran: Answer<Ran>) -> u32 {
    let Ok(ran) = ran else { panic!("{ran:?}") };
    10_000_000 / (500 + ran.count)
}

pub fn source(texts: &[Text], budget: u32) {
    heading(&format!("preview source, budget {budget}, ns per call"), &["its run"], "");
    let store = [3; 64];
    for (name, text) in texts {
        let preview = || {
            let mut out = [0; 64];
            (Libraries.preview_source(black_box(text), black_box(&store), budget, &mut out), out)
        };
        let run = || {
            let mut copy = *black_box(&store);
            (Libraries.run_source(black_box(text), &mut copy, budget), copy)
        };
        assert_eq!(preview(), run());
        compare(name, count(run().0), preview, run);
    }
}

pub fn machine(texts: &[Text], budget: u32) {
    heading(&format!("preview machine, budget {budget}, ns per call"), &["its run"], "");
    let store = [3; 64];
    for (name, text) in texts {
        let (code, table, depth, cells) = compiled(text);
        let mut memory = vec![0; depth + 1 + cells];
        assert_eq!(Libraries.load(&table, &store, depth as u64, &mut memory), Ok(cells));
        let preview = || {
            let (mut out, lent) = ([0; 64], (black_box(&memory), black_box(&store)));
            (Libraries.preview_machine(black_box(&code), lent.0, depth as u64, &table, lent.1, budget, &mut out), out)
        };
        let run = || {
            let (mut cells_copy, mut copy) = ([0; 129], *black_box(&store));
            let copied = &mut cells_copy[..memory.len()];
            copied.copy_from_slice(black_box(&memory));
            let ran = Libraries.run_machine(black_box(&code), copied, depth as u64, cells as u64, budget);
            let _ = Libraries.read_back(&table, copied, depth as u64, &mut copy);
            (ran, copy)
        };
        assert_eq!(preview(), run());
        compare(name, count(run().0), preview, run);
    }
}
