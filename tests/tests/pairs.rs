//! W6, a table tested against its code: what our compiler pairs runs as its text does; foreign pairs that agree, that
//! disagree and of any kind, beside the simple interpreter and the calls made one by one.

use profile_tests::answers::{memory_cells, Answer, Calls, End, Piece, Ran, Refusal, FRESH};
use profile_tests::both::{both, Compiled};
use profile_tests::calls::Libraries;
use profile_tests::foreign::{self, done_at_once, record, Foreign};
use profile_tests::generator::{self, Random};
use profile_tests::model::{self, Held, Interpreter};
use profile_tests::seeds;

const TEXTS: u64 = 4000;
const PAIRS: u64 = 10_000;

/// Ticks that most runs don't need.
const MANY: u32 = 4000;

const DISAGREE: Answer<Ran> = Err(Refusal(14, 0));

/// What a paired run is lent, and its D.
#[derive(Clone, Debug)]
struct Pair {
    code: Vec<u8>,
    table: Vec<u8>,
    store: Vec<i32>,
    depth: u64,
}

/// An answer, and the store as it is left.
type Left = (Answer<Ran>, Vec<i32>);

fn names_one(record: &[u8]) -> bool {
    record[0] == 0x51 || record[0] == 0x53
}

impl Pair {
    /// What our compiler writes, where the text is accepted.
    fn compiled(text: &[u8], random: &mut Random) -> Option<Pair> {
        let Compiled { code, table, depth, .. } = Compiled::of(text).ok()?;
        Some(Pair { code, table, store: random.cells(64), depth })
    }

    /// Foreign code with addresses that agree with its table.
    fn foreign(random: &mut Random) -> Pair {
        let mut foreign = Foreign::any(random);
        foreign.renumber();
        let Foreign { code, depth, cells } = foreign;
        Pair { code, table: generator::table(random, cells as usize), store: random.cells(64), depth }
    }

    /// One of both.
    fn agreeing(random: &mut Random) -> Pair {
        let text = generator::text(random);
        match Pair::compiled(&text, random) {
            Some(pair) if random.one_in(2) => pair,
            _ => Pair::foreign(random),
        }
    }

    /// How many variables the table names.
    fn names(&self) -> usize {
        model::named(&self.table)
    }

    /// Loading, running and reading back, each in its turn.
    fn one_by_one(&self, calls: &dyn Calls, budget: u32) -> Left {
        let (n, mut store) = (self.names(), self.store.clone());
        let mut memory = vec![7; memory_cells(self.depth, n as u64)];
        assert_eq!(calls.load(&self.table, &store, self.depth, &mut memory), Ok(n));
        let ran = calls.run_machine(&self.code, &mut memory, self.depth, n as u64, budget);
        assert_eq!(calls.read_back(&self.table, &memory, self.depth, &mut store), Ok(n));
        (ran, store)
    }

    /// What the call answers and leaves: the store as it was where the call declines, else what the three calls leave.
    fn checked(&self, budget: u32) -> Left {
        let given = (budget, self);
        let left = both(&given, |calls| {
            let mut store = self.store.clone();
            (calls.run_paired(&self.code, &self.table, &mut store, self.depth, budget), store)
        });
        match left.0 {
            Err(_) => assert_eq!(left.1, self.store, "{given:02x?}"),
            Ok(_) => assert_eq!(left, both(&given, |calls| self.one_by_one(calls, budget)), "{given:02x?}"),
        }
        left
    }

    /// The run of a pair that is not refused, with the sums that it holds.
    fn held(&self, budget: u32) -> Answer<(Piece, Held)> {
        let n = self.names() as u64;
        let mut memory = vec![0; memory_cells(self.depth, n)];
        Interpreter.load(&self.table, &self.store, self.depth, &mut memory)?;
        model::by_machine(&self.code, &mut memory, self.depth, n, FRESH, budget)
    }
}

/// How often each refusal and each end came up, and how often a run of that end, and one that held a sum at each limit,
/// left another store.
#[derive(Debug, Default)]
struct Tally {
    refused: [u32; 15],
    ended: [u32; 5],
    changed: [u32; 5],
    held: Held,
}

impl Tally {
    fn add(&mut self, pair: &Pair, budget: u32, (answer, store): Left) {
        match answer {
            Err(Refusal(number, _)) => self.refused[number as usize] += 1,
            Ok(ran) => {
                self.ended[ran.end as usize] += 1;
                if store != pair.store {
                    self.changed[ran.end as usize] += 1;
                    self.held.add_run(pair.held(budget));
                }
            }
        }
    }
}

/// What the source rules tell of a text, and the store as they leave it.
fn by_rules(text: &[u8], start: &[i32], budget: u32) -> Left {
    let mut store = start.to_vec();
    (Libraries.run_source(text, &mut store, budget), store)
}

/// Budgets for a text: few ticks, any, around those that its run takes, and more than enough of them.
fn budgets(text: &[u8], pair: &Pair, random: &mut Random) -> [u32; 6] {
    let Ran { end, count, .. } = by_rules(text, &pair.store, MANY).0.unwrap();
    let most = if end == End::Spent { 2 * MANY } else { u32::MAX };
    [random.below(8) as u32, random.budget(), count.saturating_sub(1), count, count + 1, most]
}

/// What our compiler writes runs as the source rules run the text.
#[test]
fn compiled_pairs() {
    let mut tally = Tally::default();
    seeds::for_each_text(TEXTS, |text, random| {
        let Some(pair) = Pair::compiled(text, random) else { return };
        for budget in budgets(text, &pair, random) {
            let got = pair.checked(budget);
            assert_eq!(got, by_rules(text, &pair.store, budget), "budget {budget}");
            tally.add(&pair, budget, got);
        }
    });
    let [done, spent, ..] = tally.changed;
    if seeds::all() {
        assert!(done > 200 && spent > 200 && tally.held.least() > 200, "{tally:?}");
    }
}

/// Foreign pairs that agree are not refused. Whatever the end, what the run stored is read back.
#[test]
fn foreign_pairs() {
    let mut tally = Tally::default();
    seeds::for_each(PAIRS, |random| {
        let (pair, budget) = (Pair::foreign(random), random.budget());
        tally.add(&pair, budget, pair.checked(budget));
    });
    if seeds::all() {
        assert!(tally.changed.iter().all(|&times| times > 50) && tally.held.least() > 50, "{tally:?}");
    }
    assert_eq!(tally.refused, [0; 15]);
}

impl Pair {
    /// The same with each record that names an address changed so.
    fn with_names(&self, change: impl Fn(&mut [u8])) -> Pair {
        let mut pair = self.clone();
        pair.code.chunks_exact_mut(5).filter(|record| names_one(record)).for_each(change);
        pair
    }

    /// The same with an entry of the table changed, the first that is `from`.
    fn with_entry(&self, from: usize, to: usize) -> Pair {
        let mut pair = self.clone();
        let v = pair.table.iter().position(|&entry| entry as usize == from).unwrap();
        pair.table[v] = to as u8;
        pair
    }

    /// Of a pair that agrees, those that can be made of it in three ways: two addresses exchanged, an address that no
    /// record names any more, a name more in the table.
    fn disagreeing(&self, random: &mut Random) -> [Option<Pair>; 3] {
        let n = self.names();
        let a = 1 + random.below(n.max(1)) as u8;
        let exchanged = (n >= 2).then(|| {
            let b = 1 + (a + random.below(n - 1) as u8) % n as u8;
            self.with_names(|record| {
                record[1] = match record[1] {
                    name if name == a => b,
                    name if name == b => a,
                    name => name,
                }
            })
        });
        let left_out = (n >= 1).then(|| {
            self.with_names(|record| {
                if record[1] == a {
                    record.copy_from_slice(&[0x54, 0, 0, 0, 0]);
                }
            })
        });
        [exchanged, left_out, (n < 64).then(|| self.with_entry(0, n + 1))]
    }
}

/// A pair that agrees is not refused; one that is made to disagree gets 14, and where the table has a name less, 10 at
/// the first record that names it.
#[test]
fn pairs_that_disagree() {
    let mut made = [0; 4];
    seeds::for_each(PAIRS / 2, |random| {
        let pair = Pair::agreeing(random);
        let budget = random.budget();
        assert!(pair.checked(budget).0.is_ok());
        for (way, other) in pair.disagreeing(random).into_iter().enumerate() {
            let Some(other) = other else { continue };
            assert_eq!(other.checked(budget).0, DISAGREE, "way {way}");
            made[way] += 1;
        }
        let n = pair.names();
        if n > 0 {
            let first = pair.code.chunks(5).position(|record| names_one(record) && record[1] as usize == n).unwrap();
            assert_eq!(pair.with_entry(n, 0).checked(budget).0, Err(Refusal(10, first as u32)));
            made[3] += 1;
        }
    });
    if seeds::all() {
        assert!(made.iter().all(|&times| times > 1000), "{made:?}");
    }
}

impl Pair {
    /// The code of one text beside the table of another, where both are accepted; else any records beside any table of
    /// few names, or a foreign pair.
    fn any(random: &mut Random) -> Pair {
        let texts = [generator::text(random), generator::text(random)];
        match texts.map(|text| Pair::compiled(&text, random)) {
            [Some(one), Some(other)] if random.one_in(2) => Pair { table: other.table, ..one },
            _ if random.one_in(2) => Pair::foreign(random),
            _ => {
                let (code, n) = (foreign::code(random, 0x50), random.below(6));
                let (table, store) = (generator::table(random, n), random.cells(64));
                Pair { code, table, store, depth: random.below(5) as u64 }
            }
        }
    }

    /// Some of what is lent changed, cut or made longer.
    fn damage(&mut self, random: &mut Random) {
        if random.one_in(20) {
            let length = random.below(130);
            self.store = random.cells(length);
        }
        if random.one_in(8) {
            random.change_entry(&mut self.table);
        }
        if random.one_in(20) {
            self.table.pop();
        }
        if random.one_in(8) {
            random.change_byte(&mut self.code);
        }
        if random.one_in(20) {
            self.code.push(0x52);
        }
        if random.one_in(6) {
            self.depth = [60 + random.below(10) as u64, random.bits()][random.below(2)];
        }
    }
}

/// Code, table and store that need not belong together, of any length, with any D: each refusal comes up, and each end.
#[test]
fn any_pairs() {
    let mut tally = Tally::default();
    seeds::for_each(PAIRS, |random| {
        let mut pair = Pair::any(random);
        pair.damage(random);
        let budget = random.budget();
        tally.add(&pair, budget, pair.checked(budget));
    });
    let refused = [9, 8, 12, 10, 14, 11].map(|number: usize| tally.refused[number]);
    if seeds::all() {
        let often = refused.iter().chain(&tally.ended).all(|&times| times > 50);
        assert!(often && tally.held.least() > 50, "{tally:?}");
    }
}

/// Every code of five records that name one of three addresses or none. As many agree with a table of n names as there
/// are ways to part the five, and a sixth that stands for none, into n + 1 groups: 1, 31, 90 and 65.
#[test]
fn every_small_code() {
    let agreeing = [0, 1, 2, 3].map(|n| {
        let table = generator::table(&mut Random::new(n), n as usize);
        let agrees = |number: u32| {
            let names = (0..5).map(|i| (number / 4u32.pow(i) % 4) as u8);
            let records = names.zip([0x51, 0x53].into_iter().cycle());
            let code = records.flat_map(|(name, first)| record(if name == 0 { 0x50 } else { first }, name.into()));
            let pair = Pair { code: code.collect(), table: table.clone(), store: vec![5; 64], depth: 2 };
            pair.checked(9).0.is_ok()
        };
        (0..4u32.pow(5)).filter(|&number| agrees(number)).count()
    });
    assert_eq!(agreeing, [1, 31, 90, 65]);
}

/// Code as long as it may be, and one record more, beside a table of 64 names: they stand in the last records, in the
/// first ones, or all over. Records that are never reached count; without the last sight there is one name too few.
#[test]
fn longest_code() {
    let table = generator::table(&mut Random::new(0), 64);
    for records in [65, 66, 4095, 4096, 4097] {
        let rest = records - 1 - 64;
        let none = || std::iter::repeat(0).take(rest);
        let all_over = (0..records - 1).map(|i| (i * 64 / (records - 1)) as u8 + 1);
        for code in [done_at_once((1..=64).chain(none())), done_at_once(none().chain(1..=64)), done_at_once(all_over)] {
            let pair = Pair { code, table: table.clone(), store: vec![5; 64], depth: 64 };
            let without = pair.with_names(|record| {
                if record[1] == 64 {
                    record[1] = 63;
                }
            });
            let [want, disagree] = match records {
                4097 => [Err(Refusal(9, 0)); 2],
                _ => [Ok(Ran { end: End::Done, count: 1, mark: 0 }), DISAGREE],
            };
            assert_eq!(pair.checked(9), (want, vec![5; 64]));
            assert_eq!(without.checked(9), (disagree, vec![5; 64]));
        }
    }
}

/// The largest memory, of D 64 and 64 names: all values are pushed and then stored in the other order, so that address
/// a gets what 65 - a had; with D 63 there is no room for the last of them.
#[test]
fn largest_memory() {
    let random = &mut Random::new(0);
    let (table, store) = (generator::table(random, 64), random.cells(64));
    let code = [0x51, 0x53].into_iter().flat_map(|first| (1..=64).rev().flat_map(move |name| record(first, name)));
    let pair = Pair { code: code.collect(), table, store, depth: 64 };
    let variable = |address: u8| pair.table.iter().position(|&entry| entry == address).unwrap();
    let turned = pair.table.iter().map(|&address| pair.store[variable(65 - address)]).collect();
    let done = Ok(Ran { end: End::Done, count: 128, mark: 64 });
    assert_eq!(pair.checked(128), (done, turned));
    let full = Ok(Ran { end: End::Full, count: 64, mark: 63 });
    let smaller = Pair { depth: 63, ..pair.clone() };
    assert_eq!(smaller.checked(128), (full, pair.store));
}
