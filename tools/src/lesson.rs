//! The words of a line of a lesson, with their columns, and what is wrong in a line.
use crate::bytes::digit;

/// The most bytes of a line: its equation, or its raw bytes in hex, must be a line of another program, which has at most 131,072.
pub const LINE_MOST: usize = 100_000;

/// What is wrong in a lesson, and where. Columns are bytes, from 1.
#[derive(Clone, Debug, PartialEq, Eq, PartialOrd, Ord)]
pub struct Wrong {
    pub line: usize,
    pub column: usize,
    pub reason: String,
}

/// What is wrong in a line: the column and the reason.
#[derive(Clone, Debug, PartialEq, Eq)]
pub struct Fault {
    pub column: usize,
    pub reason: String,
}

pub fn fault<T>(column: usize, reason: impl Into<String>) -> Result<T, Fault> {
    let reason = reason.into();
    Err(Fault { column, reason })
}

/// A word, or text in quotes.
#[derive(Clone, Debug, PartialEq, Eq)]
pub enum Token {
    Word(String),
    Text(Vec<u8>),
}

/// The words of a line that are still to be read.
#[derive(Clone)]
pub struct Words<'a> {
    line: &'a [u8],
    at: usize,
    /// Where the last word began.
    pub column: usize,
}

impl<'a> Words<'a> {
    pub fn new(line: &'a [u8]) -> Words<'a> {
        Words {
            line,
            at: 0,
            column: 1,
        }
    }

    fn skip_blanks(&mut self) {
        while matches!(self.line.get(self.at), Some(b' ' | b'\t')) {
            self.at += 1;
        }
    }

    /// The column of what comes next.
    pub fn next_column(&mut self) -> usize {
        self.skip_blanks();
        self.at + 1
    }

    pub fn is_empty(&mut self) -> bool {
        self.skip_blanks();
        self.at == self.line.len()
    }

    /// All that is left of the line, with its column.
    pub fn rest(&mut self) -> (usize, &'a [u8]) {
        let column = self.next_column();
        (column, &self.line[column - 1..])
    }

    /// The next word or text; none at the line's end.
    pub fn token(&mut self) -> Result<Option<Token>, Fault> {
        self.column = self.next_column();
        match self.line.get(self.at) {
            None => Ok(None),
            Some(b'"') => self.text().map(|text| Some(Token::Text(text))),
            Some(_) => self.plain().map(|word| Some(Token::Word(word))),
        }
    }

    fn plain(&mut self) -> Result<String, Fault> {
        let mut word = String::new();
        while let Some(&byte) = self.line.get(self.at) {
            match byte {
                b' ' | b'\t' => break,
                b'"' => return fault(self.at + 1, "a blank belongs before the quotes"),
                b'!'..=b'~' => word.push(char::from(byte)),
                _ => return fault(self.at + 1, stray(byte)),
            }
            self.at += 1;
        }
        Ok(word)
    }

    /// Text in quotes, read as in an equation: \" and \\, and \x with two hex digits for any byte.
    fn text(&mut self) -> Result<Vec<u8>, Fault> {
        let begin = self.at + 1;
        let mut text = Vec::new();
        self.at += 1;
        loop {
            let byte = match self.line.get(self.at) {
                Some(&byte) => byte,
                None => return fault(begin, "the text does not end: quotes belong behind it"),
            };
            match byte {
                b'"' => break,
                b'\\' => text.push(self.escape()?),
                b' '..=b'~' => text.push(byte),
                _ => return fault(self.at + 1, stray(byte)),
            }
            self.at += 1;
        }
        self.at += 1;
        match self.line.get(self.at) {
            None | Some(b' ' | b'\t') => Ok(text),
            Some(_) => fault(self.at + 1, "a blank belongs behind the text"),
        }
    }

    /// The byte that a backslash begins; leaves the place at its last character.
    fn escape(&mut self) -> Result<u8, Fault> {
        let reason = "behind \\ stands \", \\, or x and two hex digits";
        let column = self.at + 1;
        let digits = |at: usize| {
            let high = self.line.get(at).copied().and_then(digit)?;
            let low = self.line.get(at + 1).copied().and_then(digit)?;
            Some(high << 4 | low)
        };
        match self.line.get(self.at + 1) {
            Some(&byte @ (b'"' | b'\\')) => {
                self.at += 1;
                Ok(byte)
            }
            Some(b'x') => match digits(self.at + 2) {
                Some(byte) => {
                    self.at += 3;
                    Ok(byte)
                }
                None => fault(column, reason),
            },
            _ => fault(column, reason),
        }
    }

    /// A word that must be there.
    pub fn word(&mut self, wanted: &str) -> Result<String, Fault> {
        match self.token()? {
            Some(Token::Word(word)) => Ok(word),
            Some(Token::Text(_)) => fault(
                self.column,
                format!("text in quotes where {wanted} belongs"),
            ),
            None => fault(self.column, format!("the line ends where {wanted} belongs")),
        }
    }

    /// A decimal number that must be there.
    pub fn number(&mut self, wanted: &str) -> Result<u32, Fault> {
        let word = self.word(wanted)?;
        decimal(&word, self.column, wanted)
    }

    /// Nothing more may stand in the line.
    pub fn end(&mut self) -> Result<(), Fault> {
        if self.is_empty() {
            return Ok(());
        }
        fault(self.next_column(), "nothing more belongs in this line")
    }
}

/// What is said of a byte that may not stand in a lesson.
fn stray(byte: u8) -> &'static str {
    match byte {
        0x80..=0xff => "a byte above 127: in text write \\x and two hex digits for it",
        _ => "a control character: in text write \\x and two hex digits for it",
    }
}

pub fn decimal(word: &str, column: usize, wanted: &str) -> Result<u32, Fault> {
    if word.is_empty() || !word.bytes().all(|byte| byte.is_ascii_digit()) {
        return fault(column, format!("'{word}' where {wanted} belongs"));
    }
    match word.parse() {
        Ok(number) => Ok(number),
        Err(_) => fault(column, "the number is too large: the largest is 4294967295"),
    }
}

/// Hex digits in either case, blanks among them, from a column on.
pub fn hex(text: &[u8], column: usize) -> Result<Vec<u8>, Fault> {
    let mut digits = Vec::new();
    for (place, &byte) in text.iter().enumerate() {
        match digit(byte) {
            Some(value) => digits.push(value),
            None if matches!(byte, b' ' | b'\t') => {}
            None => {
                return fault(
                    column + place,
                    "here is no hex digit: bytes are digits 0 to 9 and a to f, two each",
                )
            }
        }
    }
    if digits.len() % 2 != 0 {
        return fault(
            column + text.len(),
            "an odd number of hex digits: each byte has two",
        );
    }
    Ok(digits
        .chunks(2)
        .map(|pair| pair[0] << 4 | pair[1])
        .collect())
}
