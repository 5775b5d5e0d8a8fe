//! The texts that are measured.

/// A text's name and its bytes.
pub type Text = (&'static str, Vec<u8>);

fn constant(z: i32) -> Vec<u8> {
    [vec![0x10], z.to_le_bytes().to_vec()].concat()
}

/// The same with one byte, where that is enough.
fn short(z: i32) -> Vec<u8> {
    i8::try_from(z).map_or(constant(z), |byte| vec![0x13, byte as u8])
}

/// How a text's constants are spelled.
type Spelling = fn(i32) -> Vec<u8>;

fn variable(v: u8) -> Vec<u8> {
    vec![0x11, v]
}

fn plus(a: Vec<u8>, b: Vec<u8>) -> Vec<u8> {
    [vec![0x12], a, b].concat()
}

fn truth(value: bool) -> Vec<u8> {
    vec![0x20, value as u8]
}

fn less(a: Vec<u8>, b: Vec<u8>) -> Vec<u8> {
    [vec![0x23], a, b].concat()
}

fn not(b: Vec<u8>) -> Vec<u8> {
    [vec![0x21], b].concat()
}

fn and(b: Vec<u8>, c: Vec<u8>) -> Vec<u8> {
    [vec![0x22], b, c].concat()
}

fn skip() -> Vec<u8> {
    vec![0x00]
}

fn assign(v: u8, a: Vec<u8>) -> Vec<u8> {
    [vec![0x01, v], a].concat()
}

fn then(c: Vec<u8>, d: Vec<u8>) -> Vec<u8> {
    [vec![0x02], c, d].concat()
}

fn sequence(commands: Vec<Vec<u8>>) -> Vec<u8> {
    commands.into_iter().rev().reduce(|rest, first| then(first, rest)).unwrap()
}

/// So many copies of a command in a balanced tree of sequences, which nests little.
fn copies(count: usize, command: &[u8]) -> Vec<u8> {
    if count == 1 {
        return command.to_vec();
    }
    then(copies(count / 2, command), copies(count - count / 2, command))
}

fn choose(b: Vec<u8>, c: Vec<u8>, d: Vec<u8>) -> Vec<u8> {
    [vec![0x03], b, c, d].concat()
}

fn repeat(b: Vec<u8>, c: Vec<u8>) -> Vec<u8> {
    [vec![0x04], b, c].concat()
}

/// What a level of a spine puts around the part inside it.
type Around<'a> = &'a dyn Fn(usize, Vec<u8>) -> Vec<u8>;

fn nested(levels: usize, innermost: Vec<u8>, around: Around) -> Vec<u8> {
    (0..levels).fold(innermost, |inner, level| around(level, inner))
}

// ---- Loops that run until their ticks are spent

pub fn loops() -> Vec<Text> {
    vec![
        ("counting", counting()),
        ("branching", branching(constant)),
        ("straight", straight()),
        ("branching, one-byte constants", branching(short)),
    ]
}

pub fn holding_loop() -> Text {
    ("holding", holding())
}

pub fn skipping_loops() -> Vec<Text> {
    vec![
        ("1 assignment", skipping(1)),
        ("10 assignments", skipping(10)),
        ("100 assignments", skipping(100)),
        ("800 assignments", skipping(800)),
    ]
}

/// WHILE x0 < 2000000000 DO x0 := x0 + 1
fn counting() -> Vec<u8> {
    repeat(less(variable(0), constant(2_000_000_000)), assign(0, plus(variable(0), constant(1))))
}

/// A loop over four variables with nested IF, And and Not
fn branching(constant: Spelling) -> Vec<u8> {
    let step = |v: u8, z: i32| assign(v, plus(variable(v), constant(z)));
    let reset = |v: u8| assign(v, constant(0));
    let inner = choose(not(less(variable(2), constant(7))), sequence(vec![reset(2), step(3, 1)]), step(2, 1));
    let outer = choose(
        and(less(variable(1), constant(5)), not(less(variable(3), variable(1)))),
        sequence(vec![step(1, 1), inner]),
        choose(less(variable(1), variable(2)), reset(1), sequence(vec![reset(1), reset(3)])),
    );
    repeat(less(variable(0), constant(2_000_000_000)), sequence(vec![step(0, 1), outer]))
}

/// A loop over a long straight text: sixty assignments
fn straight() -> Vec<u8> {
    let body = (0..60u8).map(|i| {
        let (v, a, b) = (i % 16 + 1, (i * 7) % 16 + 1, (i * 3) % 16 + 1);
        match i % 3 {
            0 => assign(v, plus(variable(a), plus(variable(b), constant(-1)))),
            1 => assign(v, constant(i as i32)),
            _ => assign(v, variable(b)),
        }
    });
    repeat(less(variable(0), constant(2_000_000_000)), sequence(body.collect()))
}

/// WHILE x1 < 2000000000 DO x0 := x0 + 2147483647: the counting loop's records, each sum but the first held
fn holding() -> Vec<u8> {
    repeat(less(variable(1), constant(2_000_000_000)), assign(0, plus(variable(0), constant(i32::MAX))))
}

/// A loop that passes over a branch of so many assignments
fn skipping(assignments: usize) -> Vec<u8> {
    let branch = copies(assignments, &assign(1, variable(2)));
    repeat(truth(true), choose(truth(false), branch, skip()))
}

// ---- Drive profiles, which run for a short time

pub fn profiles() -> Vec<Text> {
    vec![
        ("profile B, 10 bytes", profile_b()),
        ("one axis, 61 bytes", one_axis(0, 1)),
        ("two axes, 183 bytes", two_axes()),
    ]
}

/// x0 := x1 + 5
fn profile_b() -> Vec<u8> {
    assign(0, plus(variable(1), constant(5)))
}

/// The drive of a hand's reading: none near the middle, and held between −60 and 60
fn one_axis(hand: u8, drive: u8) -> Vec<u8> {
    let resting = and(less(variable(hand), constant(10)), less(constant(-10), variable(hand)));
    let set = |z: i32| assign(drive, constant(z));
    let backward = choose(less(variable(hand), constant(-60)), set(-60), assign(drive, variable(hand)));
    choose(resting, set(0), choose(less(constant(60), variable(hand)), set(60), backward))
}

/// Readings of speed and turn, the drive of each, and the speed reached by steps of 5 that are counted
fn two_axes() -> Vec<u8> {
    let step = |v: u8, z: i32| plus(variable(v), constant(z));
    let faster = choose(less(step(4, 5), variable(2)), assign(4, step(4, 5)), assign(4, variable(2)));
    sequence(vec![
        assign(0, constant(85)),
        assign(1, constant(-37)),
        one_axis(0, 2),
        one_axis(1, 3),
        repeat(less(variable(4), variable(2)), then(faster, assign(5, step(5, 1)))),
    ])
}

// ---- Long texts

pub fn long() -> Vec<Text> {
    vec![
        ("random, 4,000 bytes", random(constant, 1000, 5000)),
        ("spine of 60 IFs and WHILEs", spine()),
        ("random, one-byte constants", random(short, 127, 7000)),
    ]
}

/// A small generator of numbers (xorshift), and the constants that it makes: from −most to most.
struct Random {
    state: u64,
    spelling: Spelling,
    most: u64,
}

impl Random {
    fn below(&mut self, n: u64) -> u64 {
        self.state ^= self.state << 13;
        self.state ^= self.state >> 7;
        self.state ^= self.state << 17;
        self.state % n
    }

    fn expression(&mut self, levels: u32) -> Vec<u8> {
        match self.below(if levels == 0 { 2 } else { 4 }) {
            0 => (self.spelling)(self.below(2 * self.most + 1) as i32 - self.most as i32),
            1 => variable(self.below(64) as u8),
            _ => plus(self.expression(levels - 1), self.expression(levels - 1)),
        }
    }

    fn condition(&mut self, levels: u32) -> Vec<u8> {
        match self.below(if levels == 0 { 4 } else { 8 }) {
            0 => truth(self.below(2) == 1),
            1..=3 => less(self.expression(2), self.expression(2)),
            4..=5 => not(self.condition(levels - 1)),
            _ => and(self.condition(levels - 1), self.condition(levels - 1)),
        }
    }

    /// A command of about so many bytes.
    fn command(&mut self, size: usize) -> Vec<u8> {
        if size < 30 {
            return assign(self.below(64) as u8, self.expression(3));
        }
        match self.below(10) {
            0..=1 => choose(self.condition(2), self.command(size / 2 - 10), self.command(size / 2 - 10)),
            2 => repeat(self.condition(2), self.command(size - 20)),
            _ => then(self.command(size / 2), self.command(size / 2)),
        }
    }
}

/// A random text of 3,900 to 4,096 bytes, of tries at about so many
fn random(spelling: Spelling, most: u64, size: usize) -> Vec<u8> {
    let mut random = Random { state: 41, spelling, most };
    loop {
        let text = random.command(size);
        if (3900..=4096).contains(&text.len()) {
            return text;
        }
    }
}

/// A spine of 60 nested IFs and WHILEs
fn spine() -> Vec<u8> {
    nested(60, assign(0, constant(1)), &|level, inner| {
        let v = level as u8;
        let test = less(variable(v), plus(variable(v), constant(7)));
        if level % 2 == 0 {
            choose(test, inner, skip())
        } else {
            repeat(test, inner)
        }
    })
}

// ---- Texts of about 4,000 bytes of one shape each

/// The levels of a spine, which leave nesting enough for its copies
const LEVELS: usize = 55;

/// The most copies of a command that a text has room for
fn filled(command: Vec<u8>) -> Vec<u8> {
    copies(4097 / (command.len() + 1), &command)
}

fn leaf() -> Vec<u8> {
    less(variable(0), variable(1))
}

fn sums(around: Around) -> Vec<u8> {
    filled(assign(0, nested(LEVELS, variable(0), around)))
}

fn conditions(around: Around) -> Vec<u8> {
    filled(choose(nested(LEVELS, leaf(), around), skip(), skip()))
}

fn commands(around: Around) -> Vec<u8> {
    filled(nested(LEVELS, skip(), around))
}

pub fn shapes() -> Vec<Text> {
    let zigzag = |level: usize, b| if level % 2 == 0 { and(b, leaf()) } else { and(leaf(), b) };
    let mixed = |level: usize, b| if level % 2 == 0 { and(b, leaf()) } else { not(b) };
    vec![
        ("flat, variables", filled(assign(1, variable(2)))),
        ("flat, constants", filled(assign(1, constant(2)))),
        ("flat, one-byte constants", filled(assign(1, short(2)))),
        ("sums on the left", sums(&|_, a| plus(a, variable(1)))),
        ("sums on the right", sums(&|_, a| plus(variable(1), a))),
        ("Nots", conditions(&|_, b| not(b))),
        ("Ands on the left", conditions(&|_, b| and(b, leaf()))),
        ("Ands on the right", conditions(&|_, b| and(leaf(), b))),
        ("Ands, left and right in turn", conditions(&zigzag)),
        ("Ands and Nots in turn, on the left", conditions(&mixed)),
        ("IFs in the first branch", commands(&|_, c| choose(leaf(), c, skip()))),
        ("IFs in the second branch", commands(&|_, c| choose(leaf(), skip(), c))),
        ("WHILEs", commands(&|_, c| repeat(leaf(), c))),
    ]
}
