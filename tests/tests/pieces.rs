//! W7, pause and go on: a run in pieces is one run with their total; states handed out and states of any kind. Each
//! call is made beside the simple interpreter.

use profile_tests::answers::{memory_cells, Answer, Calls, End, Piece, Ran, Refusal, State, FRESH};
use profile_tests::both::{both, Compiled};
use profile_tests::calls::Libraries;
use profile_tests::foreign::{self, record, Foreign};
use profile_tests::generator::{self, Random};
use profile_tests::model::{self, Held, Interpreter};
use profile_tests::seeds;

const TEXTS: u64 = 4000;
const CODES: u64 = 10_000;

/// Records that most runs don't need.
const MANY: u32 = 4000;

const NO_STATE: Answer<Piece> = Err(Refusal(15, 0));

/// Machine code with its D and n, and its memory.
#[derive(Clone, Debug, PartialEq)]
struct Machine {
    code: Vec<u8>,
    memory: Vec<i32>,
    depth: u64,
    cells: u64,
}

impl Machine {
    /// A text compiled and a store loaded, and the table, where the text is accepted.
    fn loaded(text: &[u8], store: &[i32]) -> Option<(Machine, Vec<u8>)> {
        let compiled = Compiled::of(text).ok()?;
        let memory = compiled.load(store);
        let Compiled { code, table, depth, cells } = compiled;
        Some((Machine { code, memory, depth, cells }, table))
    }

    /// With any memory.
    fn of(code: Vec<u8>, depth: u64, cells: u64, random: &mut Random) -> Machine {
        Machine { code, memory: random.cells(memory_cells(depth, cells)), depth, cells }
    }

    fn foreign(random: &mut Random) -> Machine {
        let Foreign { code, depth, cells } = Foreign::any(random);
        Machine::of(code, depth, cells, random)
    }

    fn records(&self) -> u32 {
        self.code.len() as u32 / 5
    }

    /// A run from a fresh machine, or from a state, which leaves nothing else changed than the memory.
    fn run(&mut self, from: Option<State>, budget: u32) -> Answer<Piece> {
        let (answer, left) = both(&(from, budget, &self), |calls| {
            let mut left = self.clone();
            let Machine { code, memory, depth, cells } = &mut left;
            let answer = match from {
                None => calls.start(code, memory, *depth, *cells, budget),
                Some(state) => calls.go_on(code, memory, *depth, *cells, state, budget),
            };
            (answer, left)
        });
        assert_eq!(left.code, self.code);
        self.memory = left.memory;
        answer
    }

    /// A piece for each budget, the first from here and each other from what the one before handed out; they stop where
    /// none is. The last answer, and how many were run.
    fn pieces(&mut self, from: Option<State>, budgets: &[u32]) -> (Answer<Piece>, usize) {
        let mut answer = self.run(from, budgets[0]);
        for (i, &budget) in budgets.iter().enumerate().skip(1) {
            let Ok((_, Some(state))) = answer else { return (answer, i) };
            answer = self.run(Some(state), budget);
        }
        (answer, budgets.len())
    }

    /// How many records a run from here takes, where it ends before MANY; 0 where it declines.
    fn ends_at(&self, from: State) -> Option<u32> {
        let (mut memory, from) = (self.memory.clone(), State { count: 0, ..from });
        match Interpreter.go_on(&self.code, &mut memory, self.depth, self.cells, from, MANY) {
            Ok((_, Some(_))) => None,
            Ok((ran, None)) => Some(ran.count),
            Err(_) => Some(0),
        }
    }

    /// A run from a state, with the sums that it holds, on a copy of the memory.
    fn held(&self, from: State, budget: u32) -> Answer<(Piece, Held)> {
        model::by_machine(&self.code, &mut self.memory.clone(), self.depth, self.cells, from, budget)
    }

    /// One to twenty budgets, zeros among them. Where the run ends, their total may be all that 32 bits hold.
    fn budgets(&self, random: &mut Random) -> Vec<u32> {
        let ends_at = self.ends_at(FRESH);
        let most = ends_at.unwrap_or(MANY) as usize;
        let mut budgets: Vec<u32> = (0..1 + random.below(20))
            .map(|_| match random.below(4) {
                0 => 0,
                1 => random.below(4) as u32,
                2 => random.below(most / 8 + 2) as u32,
                _ => random.below(most / 2 + 2) as u32,
            })
            .collect();
        if ends_at.is_some() && random.one_in(2) {
            let rest = u32::MAX - budgets.iter().sum::<u32>();
            budgets.insert(random.below(budgets.len() + 1), rest);
        }
        budgets
    }
}

/// How often lists came to each end after a pause, stopped before their last budget, and were left with values on the
/// stack; and how often one held a sum at each limit after a pause.
#[derive(Debug, Default)]
struct Tally {
    ended: [u32; 5],
    stopped: u32,
    inside: u32,
    held: Held,
}

impl Tally {
    fn add(&mut self, answer: Answer<Piece>, run: usize, budgets: usize) {
        let Ok((ran, state)) = answer else { return };
        self.ended[ran.end as usize] += u32::from(run > 1);
        self.stopped += u32::from(run < budgets);
        self.inside += u32::from(state.is_some_and(|state| state.size > 0));
    }

    fn shows_all(&self, ends: &[End]) -> bool {
        let ended = ends.iter().all(|&end| self.ended[end as usize] > 100);
        ended && self.stopped > 100 && self.inside > 100 && self.held.least() > 100
    }
}

/// The pieces and one run with their total leave the same answer, its state among it, and the same memory.
fn pieces_are_one_run(machine: &Machine, budgets: &[u32], tally: &mut Tally) -> (Option<Piece>, Machine) {
    let (mut first, mut cut, mut whole) = (machine.clone(), machine.clone(), machine.clone());
    let (got, run) = cut.pieces(None, budgets);
    let total = budgets.iter().sum();
    let want = whole.run(None, total);
    assert_eq!((got, &cut), (want, &whole), "{budgets:?}, {machine:02x?}");
    tally.add(got, run, budgets.len());
    if let Ok((_, Some(state))) = first.run(None, budgets[0]) {
        tally.held.add_run(first.held(state, total - budgets[0]));
    }
    (got.ok(), cut)
}

/// What our compiler writes, in pieces and then read back, is the text's run under the total.
#[test]
fn compiled_machines() {
    let mut tally = Tally::default();
    seeds::for_each_text(TEXTS, |text, random| {
        let start = random.cells(64);
        let Some((machine, table)) = Machine::loaded(text, &start) else { return };
        let budgets = machine.budgets(random);
        let (got, left) = pieces_are_one_run(&machine, &budgets, &mut tally);
        let (ran, _) = got.unwrap();
        let (mut store, mut by_rules) = (start.clone(), start);
        let read = Libraries.read_back(&table, &left.memory, left.depth, &mut store);
        assert_eq!(read, Ok(left.cells as usize));
        let by_source = Libraries.run_source(text, &mut by_rules, budgets.iter().sum());
        assert_eq!((Ok(ran), store), (by_source, by_rules), "{budgets:?}");
    });
    if seeds::all() {
        assert!(tally.shows_all(&[End::Done, End::Spent]), "{tally:?}");
    }
}

/// Code that no compiler wrote, to every end.
#[test]
fn foreign_machines() {
    let mut tally = Tally::default();
    seeds::for_each(CODES, |random| {
        let machine = Machine::foreign(random);
        let budgets = machine.budgets(random);
        pieces_are_one_run(&machine, &budgets, &mut tally);
    });
    use End::*;
    if seeds::all() {
        assert!(tally.shows_all(&[Done, Spent, Short, Full, Astray]), "{tally:?}");
    }
}

/// Machines of D 2 and n 2 that come to each end after some records, and one that comes to none; two that are done hold
/// a sum, one at each limit.
fn each_end() -> Vec<(Machine, Option<End>)> {
    let [load, one, add, store] = [record(0x51, 2), record(0x50, 1), record(0x52, 0), record(0x53, 1)];
    let lowest = record(0x50, i32::MIN);
    let last = |records: &[[u8; 5]], end| {
        let code = [&[load, one, add, store, one, load], records].concat().concat();
        (Machine { code, memory: vec![7, 7, 7, 7, i32::MAX - 1], depth: 2, cells: 2 }, end)
    };
    vec![
        last(&[record(0x55, 0)], Some(End::Done)),
        last(&[add, one, add, store], Some(End::Done)),
        last(&[store, lowest, add, lowest, add, store], Some(End::Done)),
        last(&[store, store, store], Some(End::Short)),
        last(&[one], Some(End::Full)),
        last(&[record(0x55, i32::MAX)], Some(End::Astray)),
        last(&[record(0x55, -7)], None),
    ]
}

/// Each total in each two pieces, with pauses of no record about them, and in pieces of one record.
#[test]
fn every_cut() {
    let mut tally = Tally::default();
    for (machine, end) in each_end() {
        let (ran, _) = machine.clone().run(None, 20).unwrap();
        assert_eq!(ran.end, end.unwrap_or(End::Spent));
        for total in 0..=20 {
            pieces_are_one_run(&machine, &vec![1; total as usize + 1], &mut tally);
            for first in 0..=total {
                pieces_are_one_run(&machine, &[first, total - first], &mut tally);
                pieces_are_one_run(&machine, &[0, first, 0, 0, total - first, 0], &mut tally);
            }
        }
    }
    assert!(tally.ended.iter().all(|&times| times > 20) && tally.held.least() > 20, "{tally:?}");
}

/// x0 := x1 + 5, record by record: what each pause hands out. The mark stays when the stack gets smaller.
#[test]
fn record_by_record() {
    let text = [0x01, 0x00, 0x12, 0x11, 0x01, 0x13, 0x05];
    let (mut machine, _) = Machine::loaded(&text, &[3; 64]).unwrap();
    let spent = |count, mark, position, size| {
        let ran = Ran { end: End::Spent, count, mark };
        Ok((ran, Some(State { position, size, count, mark: mark.into() })))
    };
    let mut from = None;
    for (want, memory) in [
        (spent(1, 1, 1, 1), [0, 3, 0, 3, 3]),
        (spent(2, 2, 2, 2), [5, 3, 0, 3, 3]),
        (spent(3, 2, 3, 1), [5, 8, 0, 3, 3]),
        (Ok((Ran { end: End::Done, count: 4, mark: 2 }, None)), [5, 8, 0, 8, 3]),
    ] {
        let got = machine.run(from, 1);
        assert_eq!((got, &machine.memory[..]), (want, &memory[..]));
        from = got.unwrap().1;
    }
}

/// A number around a limit: up to it most often; one less, one more, so much more that its low byte doesn't show; any.
fn around(limit: u32, random: &mut Random) -> u32 {
    match random.below(16) {
        0 => limit.wrapping_sub(1),
        1 => limit.wrapping_add(1),
        2 => limit.wrapping_add(1 << [8, 16, 24, 31][random.below(4)]),
        3 => random.bits() as u32,
        4..=7 => limit,
        _ => random.below(limit as usize + 1) as u32,
    }
}

impl Machine {
    /// One of both kinds; or any records, some of which are none.
    fn any(random: &mut Random) -> Machine {
        let (text, store) = (generator::text(random), random.cells(64));
        match Machine::loaded(&text, &store) {
            Some((machine, _)) if random.one_in(3) => machine,
            _ if random.one_in(2) => Machine::foreign(random),
            _ => {
                let (code, depth, cells) = (foreign::code(random, 0x50), random.below(5), 4 + random.below(3));
                Machine::of(code, depth as u64, cells as u64, random)
            }
        }
    }

    /// Code, memory, D or n changed, cut or made longer.
    fn damage(&mut self, random: &mut Random) {
        match random.below(5) {
            0 => self.code.push(0x52),
            1 if !self.code.is_empty() => random.change_byte(&mut self.code),
            2 => {
                let length = random.below(140);
                self.memory = random.cells(length);
            }
            3 => self.depth = [self.depth + 1, 60 + random.below(10) as u64, random.bits()][random.below(3)],
            _ => self.cells = [self.cells + 1, 60 + random.below(10) as u64, random.bits()][random.below(3)],
        }
    }

    /// A state that no run need have handed out, and a budget: few records, or with the count as much as 32 bits hold,
    /// one less or one more.
    fn any_state(&self, random: &mut Random) -> (State, u32) {
        let position = around(self.records(), random);
        let mark = around(self.depth as u32, random);
        let state = State { position, size: around(mark, random), count: random.below(100) as u32, mark };
        let (budget, off) = (random.budget(), random.below(3) as u32);
        let rest = |number: u32| (u32::MAX - number).wrapping_sub(1).wrapping_add(off);
        match random.below(4) {
            0 => (State { count: rest(budget), ..state }, budget),
            1 if self.ends_at(state).is_some() => (state, rest(state.count)),
            _ => (state, budget),
        }
    }
}

/// From any state that is taken, a budget in two pieces is the budget in one. Each refusal comes up, and each end.
#[test]
fn any_states() {
    let (mut refused, mut ended, mut held) = ([0; 16], [0; 5], Held::default());
    seeds::for_each(2 * CODES, |random| {
        let mut machine = Machine::any(random);
        if random.one_in(8) {
            machine.damage(random);
        }
        let (from, budget) = machine.any_state(random);
        let (mut cut, first) = (machine.clone(), (random.bits() % (u64::from(budget) + 1)) as u32);
        held.add_run(machine.held(from, budget));
        let got = machine.run(Some(from), budget);
        match got {
            Err(Refusal(number, _)) => refused[number as usize] += 1,
            Ok((ran, _)) => {
                ended[ran.end as usize] += 1;
                let (in_two, _) = cut.pieces(Some(from), &[first, budget - first]);
                assert_eq!((in_two, &cut), (got, &machine), "{from:?}");
            }
        }
    });
    let refused = [9, 10, 11, 15].map(|number: usize| refused[number]);
    if seeds::all() {
        let often = refused.iter().chain(&ended).all(|&times| times > 100) && held.least() > 100;
        assert!(often, "{refused:?}, {ended:?}, {held:?}");
    }
}

/// A fresh machine is the state of no records: going on from it is a run.
#[test]
fn from_a_fresh_machine() {
    seeds::for_each(CODES / 4, |random| {
        let (mut machine, budget) = (Machine::any(random), random.budget());
        let mut other = machine.clone();
        assert_eq!(machine.run(None, budget), other.run(Some(FRESH), budget));
        assert_eq!(machine, other);
    });
}

/// What is handed out is taken with every budget that still fits, and with no other.
#[test]
fn handed_out_and_taken() {
    let mut paused = 0;
    seeds::for_each(CODES / 4, |random| {
        let mut machine = Machine::any(random);
        let before = random.below(60) as u32;
        let budget = random.below(before as usize + 1) as u32;
        let first = machine.run(Some(State { count: u32::MAX - before, ..FRESH }), budget);
        let Ok((_, Some(state))) = first else { return };
        paused += 1;
        let rest = before - budget;
        for next in [0, 1, 2, rest / 2, rest.saturating_sub(1), rest, rest + 1, rest + 2, u32::MAX] {
            let got = machine.clone().run(Some(state), next);
            assert_eq!(got == NO_STATE, next > rest, "{state:?}, budget {next}");
        }
    });
    if seeds::all() {
        assert!(paused > CODES / 16, "{paused}");
    }
}

/// The count goes up to 4294967295. What would pass it is refused: also where the sum in 32 bits is small, and also at
/// the end position, where nothing would be counted.
#[test]
fn the_last_counts() {
    let endless = Machine { code: record(0x54, -1).to_vec(), memory: vec![7], depth: 0, cells: 0 };
    let spent = |count| {
        let state = State { position: 0, size: 0, count, mark: 0 };
        Ok((Ran { end: End::Spent, count, mark: 0 }, Some(state)))
    };
    for (count, budget, want) in [
        (4294967294, 0, spent(4294967294)),
        (4294967294, 1, spent(4294967295)),
        (4294967294, 2, NO_STATE),
        (4294967294, 3, NO_STATE),
        (4294967295, 0, spent(4294967295)),
        (4294967295, 1, NO_STATE),
        (4294967295, 2, NO_STATE),
        (4294967295, 4294967295, NO_STATE),
        (2147483648, 2147483648, NO_STATE),
        (1, 4294967295, NO_STATE),
    ] {
        let from = State { count, ..FRESH };
        assert_eq!(endless.clone().run(Some(from), budget), want, "{count} and {budget}");
    }
    let short = Machine { code: record(0x52, 0).to_vec(), ..endless };
    let told = |end| Ok((Ran { end, count: 4294967295, mark: 0 }, None));
    for (position, count, budget, want) in
        [(0, 4294967294, 1, told(End::Short)), (1, 4294967295, 0, told(End::Done)), (1, 4294967295, 1, NO_STATE)]
    {
        let from = State { position, count, ..FRESH };
        assert_eq!(short.clone().run(Some(from), budget), want, "{position}, {count} and {budget}");
    }
}

/// Nothing else is looked at: a stack of more values than were pushed has the cells as they are, and a state at the end
/// position is done with its count and its mark.
#[test]
fn states_that_no_run_hands_out() {
    let (machine, _) = Machine::loaded(&[0x01, 0x00, 0x12, 0x11, 0x01, 0x13, 0x05], &[3; 64]).unwrap();
    let machine = Machine { memory: vec![40, 2, 9, 3, 3], ..machine };
    let done = |count| Ok((Ran { end: End::Done, count, mark: 2 }, None));
    for (position, budget, want, memory) in [
        (2, 2, done(2), [40, 42, 9, 42, 3]),
        (3, 1, done(1), [40, 2, 9, 40, 3]),
        (4, 0, done(0), [40, 2, 9, 3, 3]),
        (4, 7, done(0), [40, 2, 9, 3, 3]),
    ] {
        let (mut machine, from) = (machine.clone(), State { position, size: 2, count: 0, mark: 2 });
        assert_eq!(machine.run(Some(from), budget), want, "{from:?}");
        assert_eq!(machine.memory, memory, "{from:?}");
    }
}
