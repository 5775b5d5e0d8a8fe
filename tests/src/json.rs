//! As much of JSON as the vectors use: objects, arrays, strings without escapes, whole numbers, null.

use std::collections::BTreeMap;

#[derive(Clone, Debug, PartialEq)]
pub enum Value {
    Null,
    Number(i64),
    Text(String),
    List(Vec<Value>),
    Object(BTreeMap<String, Value>),
}

impl Value {
    pub fn parse(line: &str) -> Value {
        let mut parser = Parser { bytes: line.as_bytes(), at: 0 };
        let value = parser.value();
        parser.blanks();
        assert_eq!(parser.at, parser.bytes.len(), "bytes after the value");
        value
    }

    pub fn get(&self, name: &str) -> Option<&Value> {
        match self {
            Value::Object(fields) => fields.get(name),
            _ => None,
        }
    }

    pub fn number(&self) -> i64 {
        match self {
            Value::Number(n) => *n,
            other => panic!("not a number: {other:?}"),
        }
    }

    pub fn text(&self) -> &str {
        match self {
            Value::Text(s) => s,
            other => panic!("not a string: {other:?}"),
        }
    }

    /// Bytes written in hexadecimal.
    pub fn bytes(&self) -> Vec<u8> {
        let digits = self.text();
        assert_eq!(digits.len() % 2, 0);
        (0..digits.len()).step_by(2).map(|i| u8::from_str_radix(&digits[i..i + 2], 16).unwrap()).collect()
    }

    /// Signed cells, as a list of numbers.
    pub fn cells(&self) -> Vec<i32> {
        match self {
            Value::List(items) => items.iter().map(|v| i32::try_from(v.number()).unwrap()).collect(),
            other => panic!("not a list: {other:?}"),
        }
    }
}

struct Parser<'a> {
    bytes: &'a [u8],
    at: usize,
}

impl Parser<'_> {
    fn blanks(&mut self) {
        while self.at < self.bytes.len() && self.bytes[self.at].is_ascii_whitespace() {
            self.at += 1;
        }
    }

    fn peek(&mut self) -> u8 {
        self.blanks();
        self.bytes[self.at]
    }

    fn expect(&mut self, byte: u8) {
        assert_eq!(self.peek() as char, byte as char, "at {}", self.at);
        self.at += 1;
    }

    fn value(&mut self) -> Value {
        match self.peek() {
            b'{' => {
                let mut fields = BTreeMap::new();
                self.items(b'{', b'}', |p| {
                    let name = p.string();
                    p.expect(b':');
                    let value = p.value();
                    fields.insert(name, value);
                });
                Value::Object(fields)
            }
            b'[' => {
                let mut list = Vec::new();
                self.items(b'[', b']', |p| {
                    let value = p.value();
                    list.push(value);
                });
                Value::List(list)
            }
            b'"' => Value::Text(self.string()),
            b'n' => self.null(),
            _ => self.whole_number(),
        }
    }

    fn items(&mut self, open: u8, close: u8, mut item: impl FnMut(&mut Self)) {
        self.expect(open);
        if self.peek() != close {
            item(self);
            while self.peek() == b',' {
                self.at += 1;
                item(self);
            }
        }
        self.expect(close);
    }

    fn string(&mut self) -> String {
        self.expect(b'"');
        let start = self.at;
        while self.bytes[self.at] != b'"' {
            assert_ne!(self.bytes[self.at], b'\\', "an escape");
            self.at += 1;
        }
        self.at += 1;
        String::from_utf8(self.bytes[start..self.at - 1].to_vec()).unwrap()
    }

    fn null(&mut self) -> Value {
        assert!(self.bytes[self.at..].starts_with(b"null"), "no word of JSON at {}", self.at);
        self.at += 4;
        Value::Null
    }

    fn whole_number(&mut self) -> Value {
        let start = self.at;
        while self.at < self.bytes.len() && matches!(self.bytes[self.at], b'-' | b'0'..=b'9') {
            self.at += 1;
        }
        let digits = std::str::from_utf8(&self.bytes[start..self.at]).unwrap();
        Value::Number(digits.parse().unwrap_or_else(|_| panic!("no number at {start}")))
    }
}
