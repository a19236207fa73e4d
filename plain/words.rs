// The words of a script, each with the place where it begins, and why a text is refused.
use std::fmt;

// A line and a column, both from 1. A column is a byte.
#[derive(Clone, Copy)]
pub struct Place {
    pub line: usize,
    pub column: usize,
}

// The number of the rule that failed, and the place, if there is one.
#[derive(Clone, Copy)]
pub struct Refusal {
    pub number: u8,
    pub place: Option<Place>,
}

impl Refusal {
    fn layer(self) -> &'static str {
        match self.number {
            1..=4 => "words",
            5..=6 => "sentence",
            7..=12 => "names",
            13 => "graph",
            _ => "solving",
        }
    }
}

impl fmt::Display for Refusal {
    fn fmt(&self, f: &mut fmt::Formatter<'_>) -> fmt::Result {
        let place = self.place.unwrap_or(Place { line: 0, column: 0 });
        write!(
            f,
            "refused {} {} {} {}",
            self.layer(),
            self.number,
            place.line,
            place.column
        )
    }
}

// A word. A fault is a word that fails a rule of words, by the number of the rule.
#[derive(Clone, Copy, PartialEq, Eq)]
pub enum Word<'a> {
    Name(&'a [u8]),
    Number(i64),
    Sign(&'static str),
    Fault(u8),
    End,
}

const SIGNS: [&str; 14] = [
    ":=", "..", "<=", ">=", "<", ">", "=", "+", "-", "{", "}", "[", "]", ";",
];

const RESERVED: [&str; 7] = ["var", "table", "if", "else", "while", "hear", "sense"];

const MOST_NUMBER: i64 = 2147483647;

const LONGEST_NAME: usize = 16;

// Hands out the words of a script one by one.
pub struct Words<'a> {
    rest: &'a [u8],
    place: Place,
}

impl<'a> Words<'a> {
    pub fn new(script: &'a [u8]) -> Words<'a> {
        Words {
            rest: script,
            place: Place { line: 1, column: 1 },
        }
    }

    // Passes so many bytes, and answers them.
    fn pass(&mut self, count: usize) -> &'a [u8] {
        let (front, rest) = self.rest.split_at(count);
        for byte in front {
            if *byte == b'\n' {
                self.place.line += 1;
                self.place.column = 1;
            } else {
                self.place.column += 1;
            }
        }
        self.rest = rest;
        front
    }

    // Passes the bytes at the front that fit a test.
    fn pass_while(&mut self, fits: impl Fn(u8) -> bool) -> &'a [u8] {
        let count = self
            .rest
            .iter()
            .position(|byte| !fits(*byte))
            .unwrap_or(self.rest.len());
        self.pass(count)
    }

    // Passes blanks and comments.
    fn pass_gap(&mut self) {
        loop {
            self.pass_while(|byte| matches!(byte, b' ' | b'\t' | b'\r' | b'\n'));
            if self.rest.first() != Some(&b'#') {
                return;
            }
            self.pass_while(|byte| byte != b'\n');
        }
    }

    fn name(&mut self) -> Word<'a> {
        let name = self.pass_while(|byte| matches!(byte, b'a'..=b'z' | b'0'..=b'9' | b'_'));
        match RESERVED.iter().find(|word| word.as_bytes() == name) {
            Some(word) => Word::Sign(word),
            None if name.len() > LONGEST_NAME => Word::Fault(4),
            None => Word::Name(name),
        }
    }

    fn number(&mut self) -> Word<'a> {
        let mut number = 0;
        for digit in self.pass_while(|byte| byte.is_ascii_digit()) {
            number = (number * 10 + i64::from(digit - b'0')).min(MOST_NUMBER + 1);
        }
        if number > MOST_NUMBER {
            Word::Fault(3)
        } else {
            Word::Number(number)
        }
    }

    fn sign(&mut self) -> Word<'a> {
        match SIGNS
            .iter()
            .find(|sign| self.rest.starts_with(sign.as_bytes()))
        {
            Some(sign) => {
                self.pass(sign.len());
                Word::Sign(sign)
            }
            None => Word::Fault(2),
        }
    }

    // The next word and its place.
    pub fn next_word(&mut self) -> (Word<'a>, Place) {
        self.pass_gap();
        let place = self.place;
        let word = match self.rest.first() {
            None => Word::End,
            Some(b'a'..=b'z') => self.name(),
            Some(b'0'..=b'9') => self.number(),
            Some(_) => self.sign(),
        };
        (word, place)
    }
}
