//! W8, sums hold at the limit: sums at each limit, one past it and far past it, by every call that runs a text or code,
//! each beside the simple interpreter; and random sums beside the same in 64 bits, clamped.

use profile_tests::answers::{Answer, End, Piece, Ran, State};
use profile_tests::both::{both, Compiled};
use profile_tests::foreign::record;
use profile_tests::generator::Random;
use profile_tests::model::{self, Held};
use profile_tests::seeds;

const SEEDS: u64 = 4000;

const LEAST: i32 = -2147483648;
const MOST: i32 = 2147483647;

/// A store that no run has changed.
const START: [i32; 64] = [7; 64];

fn clamped(sum: i64) -> i32 {
    sum.clamp(LEAST.into(), MOST.into()) as i32
}

// ---- Texts

fn constant(z: i32) -> Vec<u8> {
    [&[0x10][..], &z.to_le_bytes()].concat()
}

fn variable(v: u8) -> Vec<u8> {
    vec![0x11, v]
}

fn plus(a: Vec<u8>, b: Vec<u8>) -> Vec<u8> {
    [vec![0x12], a, b].concat()
}

fn less(a: Vec<u8>, b: Vec<u8>) -> Vec<u8> {
    [vec![0x23], a, b].concat()
}

fn assign(v: u8, a: Vec<u8>) -> Vec<u8> {
    [vec![0x01, v], a].concat()
}

fn then(c: Vec<u8>, d: Vec<u8>) -> Vec<u8> {
    [vec![0x02], c, d].concat()
}

/// IF the condition x0 := 1 ELSE x0 := 2.
fn choose(b: Vec<u8>) -> Vec<u8> {
    [vec![0x03], b, assign(0, constant(1)), assign(0, constant(2))].concat()
}

fn repeat(b: Vec<u8>, c: Vec<u8>) -> Vec<u8> {
    [vec![0x04], b, c].concat()
}

// ---- Runs

/// What a run tells, and the store that it leaves.
type Left = (Ran, Vec<i32>);

/// A run on a copy of what it is lent.
fn on_copy(lent: &[i32], run: impl FnOnce(&mut [i32]) -> Answer<Ran>) -> Left {
    let mut copy = lent.to_vec();
    let ran = run(&mut copy).unwrap();
    (ran, copy)
}

/// A text's run by each call that runs it or what it compiles to: the same, at each of these budgets for a first piece
/// too.
fn everywhere(text: &[u8], start: &[i32], budget: u32, cuts: &[u32]) -> Left {
    let compiled = Compiled::of(text).unwrap();
    let memory = compiled.load(start);
    let Compiled { code, table, depth, cells } = &compiled;
    both(&(text, start, budget), |calls| {
        let mut assembly = vec![0; code.len()];
        calls.assemble(text, &mut assembly).unwrap();
        let read_back =
            |(ran, memory): Left| on_copy(start, |store| calls.read_back(table, &memory, *depth, store).map(|_| ran));
        let in_two = |first: u32, memory: &mut [i32]| match calls.start(code, memory, *depth, *cells, first)? {
            (_, Some(from)) => calls.go_on(code, memory, *depth, *cells, from, budget - first).map(|(ran, _)| ran),
            (ran, None) => Ok(ran),
        };
        let left = on_copy(start, |store| calls.run_source(text, store, budget));
        let others = [
            on_copy(start, |store| calls.run_assembly(&assembly, store, &mut vec![7; *depth as usize], budget)),
            read_back(on_copy(&memory, |memory| calls.run_machine(code, memory, *depth, *cells, budget))),
            on_copy(start, |store| calls.run_paired(code, table, store, *depth, budget)),
            on_copy(&[7; 64], |out| calls.preview_source(text, start, budget, out)),
            on_copy(&[7; 64], |out| calls.preview_machine(code, &memory, *depth, table, start, budget, out)),
        ];
        let pieces = cuts.iter().map(|&first| read_back(on_copy(&memory, |memory| in_two(first, memory))));
        for other in others.into_iter().chain(pieces) {
            assert_eq!(other, left);
        }
        left
    })
}

/// A text's run, cut after each of its first ticks.
fn every_cut(text: &[u8], start: &[i32], budget: u32) -> Left {
    everywhere(text, start, budget, &(0..=budget.min(30)).collect::<Vec<u32>>())
}

/// What a text that is done at this count leaves in x0, all else staying.
fn left_in_x0(text: &[u8], start: &[i32], count: u32) -> i32 {
    let (ran, store) = every_cut(text, start, count);
    assert_eq!((ran.end, ran.count), (End::Done, count), "{text:02x?}");
    assert_eq!(store[1..], start[1..], "{text:02x?}");
    assert_eq!(every_cut(text, start, count + 9), (ran, store.clone()));
    store[0]
}

// ---- Single sums

/// Of constants and of variables, in either order.
#[test]
fn at_and_past_each_limit() {
    for (x, y, sum) in [
        (MOST, 0, MOST),
        (MOST - 1, 1, MOST),
        (1073741824, 1073741823, MOST),
        (MOST, 1, MOST),
        (MOST - 1, 2, MOST),
        (1073741824, 1073741824, MOST),
        (MOST, MOST, MOST),
        (LEAST, 0, LEAST),
        (LEAST + 1, -1, LEAST),
        (-1073741824, -1073741824, LEAST),
        (LEAST, -1, LEAST),
        (LEAST + 1, -2, LEAST),
        (-1073741824, -1073741825, LEAST),
        (LEAST, LEAST, LEAST),
        (MOST, -1, MOST - 1),
        (LEAST, 1, LEAST + 1),
        (LEAST, MOST, -1),
    ] {
        for (x, y) in [(x, y), (y, x)] {
            let mut start = START;
            [start[1], start[2]] = [x, y];
            for (a, b) in [(constant(x), constant(y)), (variable(1), variable(2)), (constant(x), variable(2))] {
                assert_eq!(left_in_x0(&assign(0, plus(a, b)), &start, 4), sum, "{x} + {y}");
            }
        }
    }
}

/// ADD alone, from a state between two records whose stack holds any two of these: the second's cell gets the sum, and
/// no other cell changes. A value below them, on a stack of assembly.
#[test]
fn any_two_on_the_stack() {
    let middle = 1 << 30;
    let upper = [0, 1, 2, 3, middle - 1, middle, middle + 1, MOST - 2, MOST - 1, MOST];
    let values: Vec<i32> = upper.into_iter().flat_map(|z| [z, -z, -z - 1]).collect();
    let add = record(0x52, 0);
    for (&x, &y) in values.iter().flat_map(|x| values.iter().map(move |y| (x, y))) {
        let sum = clamped(i64::from(x) + i64::from(y));
        let from = State { position: 0, size: 2, count: 41, mark: 2 };
        let done = Ok((Ran { end: End::Done, count: 42, mark: 2 }, None));
        let got: (Answer<Piece>, _) = both(&(x, y), |calls| {
            let mut memory = [9, y, x, 8, 6];
            (calls.go_on(&add, &mut memory, 3, 1, from, 1), memory)
        });
        assert_eq!(got, (done, [9, y, sum, 8, 6]), "{x} + {y}");

        let code = [record(0x40, 5), record(0x40, x), record(0x40, y), record(0x42, 0)].concat();
        let got = both(&(x, y), |calls| {
            let (mut store, mut stack) = (START, [9; 4]);
            (calls.run_assembly(&code, &mut store, &mut stack, 4), store, stack)
        });
        let done = Ok(Ran { end: End::Done, count: 4, mark: 3 });
        assert_eq!(got, (done, START, [5, sum, y, 9]), "{x} + {y}");
    }
}

/// x0 := x + y tick by tick: with the sum's tick refused the run is spent before it, with the tick charged its cell has
/// the limit, and the store's tick is the next.
#[test]
fn the_tick_is_charged() {
    for (x, y, sum) in [(MOST, 1, MOST), (MOST, MOST, MOST), (LEAST, -1, LEAST), (LEAST, LEAST, LEAST)] {
        let text = assign(0, plus(constant(x), constant(y)));
        let Compiled { code, depth, cells, .. } = Compiled::of(&text).unwrap();
        assert_eq!((depth, cells), (2, 1));
        for (budget, end, mark, memory) in [
            (0, End::Spent, 0, [6, 6, 6, 7]),
            (1, End::Spent, 1, [6, x, 6, 7]),
            (2, End::Spent, 2, [y, x, 6, 7]),
            (3, End::Spent, 2, [y, sum, 6, 7]),
            (4, End::Done, 2, [y, sum, 6, sum]),
            (5, End::Done, 2, [y, sum, 6, sum]),
        ] {
            let ran = Ran { end, count: budget.min(4), mark };
            let mut store = START;
            store[0] = memory[3];
            assert_eq!(every_cut(&text, &START, budget), (ran, store.to_vec()), "{x} + {y}, budget {budget}");
            let by_machine = both(&(x, y, budget), |calls| {
                on_copy(&[6, 6, 6, 7], |memory| calls.run_machine(&code, memory, depth, cells, budget))
            });
            assert_eq!(by_machine, (ran, memory.to_vec()), "{x} + {y}, budget {budget}");
        }
    }
}

// ---- Sums of sums

/// One after the other from the left, in one expression and as assignments: what was held goes on from the limit.
#[test]
fn chains_come_back() {
    for (parts, sum) in [
        (&[MOST, 1, -1][..], MOST - 1),
        (&[MOST, 1, 1, 1, -3], MOST - 3),
        (&[MOST, MOST, LEAST], -1),
        (&[MOST, MOST, LEAST, LEAST], LEAST),
        (&[MOST, MOST, LEAST, LEAST, 1], LEAST + 1),
        (&[1, -1, MOST], MOST),
        (&[LEAST, -1, 1], LEAST + 1),
        (&[LEAST, -1, -1, -1, 3], LEAST + 3),
        (&[LEAST, LEAST, MOST], -1),
        (&[LEAST, LEAST, MOST, MOST, MOST, -1], MOST - 1),
        (&[2000000000, 2000000000, -2000000000, -2000000000], 147483647 - 2000000000),
    ] {
        let sums = parts.len() as u32 - 1;
        let constants = parts.iter().map(|&part| constant(part));
        let expression = constants.clone().reduce(plus).unwrap();
        assert_eq!(left_in_x0(&assign(0, expression), &START, 2 * sums + 2), sum, "{parts:?}");

        let add = |part| assign(0, plus(variable(0), part));
        let commands = constants.enumerate().map(|(i, part)| if i == 0 { assign(0, part) } else { add(part) });
        assert_eq!(left_in_x0(&commands.reduce(then).unwrap(), &START, 4 * sums + 2), sum, "{parts:?}");
    }
}

/// Sums are made in their order: 2147483647 + (1 + -1) holds nothing.
#[test]
fn brackets_matter() {
    for (limit, by) in [(MOST, 1), (LEAST, -1)] {
        let [a, b, c] = [limit, by, -by].map(constant);
        let from_left = plus(plus(a.clone(), b.clone()), c.clone());
        assert_eq!(left_in_x0(&assign(0, from_left), &START, 6), limit - by);
        assert_eq!(left_in_x0(&assign(0, plus(a, plus(b, c))), &START, 6), limit);
    }
}

/// As deep as sums may nest, on either side: x0 := x1 + .. + x1, 62 times.
#[test]
fn the_deepest_sums() {
    for (x, sum) in [(40000000, MOST), (-40000000, LEAST), (34000000, 63 * 34000000), (MOST, MOST), (LEAST, LEAST)] {
        let mut start = START;
        start[1] = x;
        let leaves = vec![variable(1); 63];
        let left = leaves.clone().into_iter().reduce(plus).unwrap();
        let right = leaves.into_iter().reduce(|rest, leaf| plus(leaf, rest)).unwrap();
        for expression in [left, right] {
            assert_eq!(left_in_x0(&assign(0, expression), &start, 126), sum, "63 times {x}");
        }
    }
}

// ---- Conditions and loops

/// Document 01's F and G, from a store of zeros and from others: F still is done at 1; G is done at 5, its store as it
/// was, and spent at every budget below.
#[test]
fn f_and_g() {
    let sum = less(plus(constant(MOST), constant(1)), constant(0));
    let f = [&[0x03, 0x22, 0x20, 0x00][..], &sum, &[0x00, 0x00]].concat();
    let g = [&[0x03, 0x22][..], &sum, &[0x20, 0x00, 0x00, 0x00]].concat();
    for start in [[0; 64], START, [MOST; 64], [LEAST; 64]] {
        for (text, ticks, mark) in [(&f, 1, 0), (&g, 5, 2)] {
            for budget in 0..ticks {
                let (ran, store) = every_cut(text, &start, budget);
                assert_eq!((ran.end, ran.count, store), (End::Spent, budget, start.to_vec()));
            }
            for budget in [ticks, ticks + 1, 1000000, u32::MAX] {
                let done = Ran { end: End::Done, count: ticks, mark };
                assert_eq!(every_cut(text, &start, budget), (done, start.to_vec()));
            }
        }
    }
}

/// A held sum is compared as the limit that it is: IF a < b, and IF Not (a < b), which jumps the other way.
#[test]
fn compared() {
    let above = || plus(constant(MOST), constant(1));
    let below = || plus(constant(LEAST), constant(-1));
    for (a, b, sums, truth) in [
        (above(), constant(0), 1, false),
        (above(), constant(MOST), 1, false),
        (constant(MOST - 1), above(), 1, true),
        (constant(MOST), above(), 1, false),
        (below(), constant(0), 1, true),
        (below(), constant(LEAST), 1, false),
        (constant(LEAST), below(), 1, false),
        (below(), constant(LEAST + 1), 1, true),
        (below(), above(), 2, true),
        (above(), below(), 2, false),
        (above(), plus(constant(MOST), constant(MOST)), 2, false),
    ] {
        let ticks = |first| 3 + 2 * sums + 2 + u32::from(first);
        let test = less(a, b);
        let not = [vec![0x21], test.clone()].concat();
        let value = |truth| if truth { 1 } else { 2 };
        assert_eq!(left_in_x0(&choose(test.clone()), &START, ticks(truth)), value(truth), "{test:02x?}");
        assert_eq!(left_in_x0(&choose(not), &START, ticks(!truth)), value(!truth), "Not {test:02x?}");
    }
}

/// WHILE x0 < 2147483647 DO x0 := x0 + 1000000000, and the same downwards: three turns, of which the last holds.
#[test]
fn loops_that_end_at_the_limit() {
    let start = [0; 64];
    let up = repeat(less(variable(0), constant(MOST)), assign(0, plus(variable(0), constant(1000000000))));
    let down = repeat(less(constant(LEAST), variable(0)), assign(0, plus(variable(0), constant(-1000000000))));
    assert_eq!(left_in_x0(&up, &start, 27), MOST);
    assert_eq!(left_in_x0(&down, &start, 27), LEAST);
}

/// WHILE true DO x0 := x0 + z holds in each turn from some turn on, and is spent at every budget.
#[test]
fn loops_that_stay_at_the_limit() {
    for (z, limit) in [(1000000000, MOST), (-1000000000, LEAST)] {
        let text = repeat(vec![0x20, 0x01], assign(0, plus(variable(0), constant(z))));
        for budget in 0..60 {
            let turns = i64::from((budget + 1) / 5);
            let (ran, store) = every_cut(&text, &[0; 64], budget);
            assert_eq!((ran.end, ran.count), (End::Spent, budget));
            assert_eq!(store[0], clamped(turns * i64::from(z)));
        }
        let (ran, store) = everywhere(&text, &[0; 64], 100000, &[50000]);
        assert_eq!((ran.end, ran.count, store[0]), (End::Spent, 100000, limit));
    }
}

// ---- Random ones

/// An expression that is being made: its text, how many ticks it takes, and which of its sums hold.
#[derive(Default)]
struct Sums {
    text: Vec<u8>,
    ticks: u32,
    held: Held,
}

impl Sums {
    /// Appends one of constants and the store's variables, and gives its value.
    fn add(&mut self, random: &mut Random, store: &[i32], nesting_left: usize) -> i32 {
        self.ticks += 1;
        match random.below(8) {
            0..=4 if nesting_left > 1 && self.text.len() < 400 => {
                self.text.push(0x12);
                let [x, y] = [0; 2].map(|_| i64::from(self.add(random, store, nesting_left - 1)));
                let sum = clamped(x + y);
                self.held.above += u32::from(x + y > i64::from(MOST));
                self.held.below += u32::from(x + y < i64::from(LEAST));
                sum
            }
            5 => {
                let byte = random.bits() as i8;
                self.text.extend([0x13, byte as u8]);
                byte.into()
            }
            6 => {
                let z = random.cell();
                self.text.extend(constant(z));
                z
            }
            _ => {
                let v = random.below(64);
                self.text.extend(variable(v as u8));
                store[v]
            }
        }
    }
}

/// Assignments of random sums, one after the other, beside the same in 64 bits.
#[test]
fn beside_clamped_sums() {
    let (mut runs, mut came_back) = (Held::default(), 0);
    seeds::for_each(SEEDS, |random| {
        let start = random.cells(64);
        let (mut sums, mut store) = (Sums::default(), start.clone());
        for commands_left in (0..1 + random.below(4)).rev() {
            if commands_left > 0 {
                sums.text.push(0x02);
            }
            let (v, before) = (random.below(64), sums.held);
            sums.text.extend([0x01, v as u8]);
            sums.ticks += 1;
            store[v] = sums.add(random, &store, 50);
            came_back += u32::from(sums.held != before && store[v] != MOST && store[v] != LEAST);
        }
        let Sums { text, ticks, held } = sums;
        let cuts = [0, 1, random.below(ticks as usize) as u32, ticks - 1];
        let (ran, left) = everywhere(&text, &start, ticks, &cuts);
        assert_eq!((ran.end, ran.count, left), (End::Done, ticks, store));
        let by_model = model::by_source(&text, &mut start.clone(), ticks);
        assert_eq!(by_model, Ok((ran, held)));
        runs.add_run(by_model);
    });
    if seeds::all() {
        assert!(runs.least() > 500 && came_back > 500, "{runs:?}, {came_back} came back");
    }
}

/// Random texts at random budgets, and at the budgets around the first sum that is held.
#[test]
fn random_texts() {
    let mut runs = Held::default();
    seeds::for_each_text(SEEDS, |text, random| {
        if Compiled::of(text).is_err() {
            return;
        }
        let start = random.cells(64);
        let held = |budget: u32| model::by_source(text, &mut start.clone(), budget).unwrap().1;
        if let Some(first) = (1..200).find(|&ticks| held(ticks) != Held::default()) {
            for budget in [first - 1, first, first + 1] {
                let _ = everywhere(text, &start, budget, &[first - 1, first.min(budget)]);
            }
        }
        let budget = random.budget();
        let (ran, _) = everywhere(text, &start, budget, &[budget / 2]);
        assert!(matches!(ran.end, End::Done | End::Spent), "{ran:?}");
        runs.add_run(model::by_source(text, &mut start.clone(), budget));
    });
    if seeds::all() {
        assert!(runs.least() > 200, "{runs:?}");
    }
}
