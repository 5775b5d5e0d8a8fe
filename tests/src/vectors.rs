//! `vectors/calls.jsonl`: single calls with every lent buffer before and after.

use std::fmt;

use crate::answers::{Answer, End, Piece, Ran, Refusal, Sizes, State};
use crate::json::Value;

/// One line of the file.
pub struct Call {
    line: usize,
    pub name: String,
    value: Value,
}

/// Where it stands.
impl fmt::Display for Call {
    fn fmt(&self, out: &mut fmt::Formatter) -> fmt::Result {
        write!(out, "calls.jsonl, line {}: {}", self.line, self.name)
    }
}

/// All lines of the file.
pub fn calls() -> Vec<Call> {
    let path = concat!(env!("CARGO_MANIFEST_DIR"), "/vectors/calls.jsonl");
    let file = std::fs::read_to_string(path).unwrap();
    let call = |(i, line)| {
        let value = Value::parse(line);
        Call { line: i + 1, name: value.get("call").unwrap().text().to_string(), value }
    };
    file.lines().enumerate().map(call).collect()
}

/// The texts of `vectors/texts`, each with the program's whole output.
pub fn texts() -> Vec<(String, Vec<u8>, String)> {
    let folder = concat!(env!("CARGO_MANIFEST_DIR"), "/vectors/texts");
    let mut found = Vec::new();
    for entry in std::fs::read_dir(folder).unwrap() {
        let path = entry.unwrap().path();
        if path.extension().is_some_and(|extension| extension == "text") {
            let want = std::fs::read_to_string(path.with_extension("want")).unwrap();
            found.push((path.display().to_string(), std::fs::read(&path).unwrap(), want));
        }
    }
    assert!(found.len() >= 100, "{} texts", found.len());
    found.sort();
    found
}

impl Call {
    pub fn input(&self, name: &str) -> &Value {
        self.value.get("in").unwrap().get(name).unwrap()
    }

    pub fn bytes(&self, name: &str) -> Vec<u8> {
        self.input(name).bytes()
    }

    pub fn cells(&self, name: &str) -> Vec<i32> {
        self.input(name).cells()
    }

    pub fn number(&self, name: &str) -> u64 {
        self.input(name).number() as u64
    }

    pub fn budget(&self) -> u32 {
        self.number("budget") as u32
    }

    /// A lent buffer as the call leaves it: as `after` says, or as it was.
    fn after(&self, name: &str) -> &Value {
        self.value.get("after").and_then(|after| after.get(name)).unwrap_or_else(|| self.input(name))
    }

    pub fn bytes_after(&self, name: &str) -> Vec<u8> {
        self.after(name).bytes()
    }

    pub fn cells_after(&self, name: &str) -> Vec<i32> {
        self.after(name).cells()
    }

    fn output(&self, name: &str) -> i64 {
        self.value.get("out").unwrap().get(name).unwrap().number()
    }

    fn answer<T>(&self, result: impl Fn(&Self) -> T) -> Answer<T> {
        if self.value.get("out").unwrap().get("refused").is_some() {
            return Err(Refusal(self.output("refused") as u8, self.output("at") as u32));
        }
        Ok(result(self))
    }

    pub fn sizes(&self) -> Answer<Sizes> {
        self.answer(|call| Sizes {
            records: call.output("records") as u16,
            depth: call.output("D") as u8,
            cells: call.output("n") as u8,
        })
    }

    /// The number that loading, reading back (`n`), going back or inspecting (`records`) gives.
    pub fn count(&self, name: &str) -> Answer<usize> {
        self.answer(|call| call.output(name) as usize)
    }

    fn told(&self) -> Ran {
        Ran {
            end: match self.value.get("out").unwrap().get("end").unwrap().text() {
                "done" => End::Done,
                "spent" => End::Spent,
                "short" => End::Short,
                "full" => End::Full,
                "astray" => End::Astray,
                other => panic!("no end is called {other}"),
            },
            count: self.output("count") as u32,
            mark: self.output("mark") as u8,
        }
    }

    pub fn ran(&self) -> Answer<Ran> {
        self.answer(Call::told)
    }

    /// A run and the state that it hands out.
    pub fn piece(&self) -> Answer<Piece> {
        self.answer(|call| (call.told(), call.value.get("out").unwrap().get("state").map(state)))
    }

    /// The state that the call takes.
    pub fn state(&self) -> State {
        state(self.input("state"))
    }
}

/// A state; what later requests keep in it is not there yet.
fn state(value: &Value) -> State {
    let number = |name: &str| u32::try_from(value.get(name).unwrap().number()).unwrap();
    assert_eq!((value.get("carried"), number("reach")), (Some(&Value::Null), 0));
    State { position: number("position"), size: number("size"), count: number("count"), mark: number("mark") }
}
