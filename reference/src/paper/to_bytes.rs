//! From text to bytes, a byte of the text at a time. What may stand next is
//! kept as a state, so the first byte that no text has there is seen at once.
//! Connectives wait on a stack until a weaker one, a ")" or the end comes.

use super::names::{begins_a_name, id_of, least_width, taken_width, OPERATORS};
use super::{Reason, Refusal, DEEPEST, MOST, STRING_MOST};
use crate::equation::STARS;

const AND: u8 = 1;
const OR: u8 = 2;

/// The bytes of a text of the grammar, or why there are none.
pub fn to_bytes(text: &[u8]) -> Result<Vec<u8>, Refusal> {
    let mut reader = Reader::new();
    for (index, &byte) in text.iter().enumerate() {
        reader
            .step(byte)
            .map_err(|reason| Refusal::Wrong(index + 1, reason))?;
    }
    reader
        .end()
        .map_err(|reason| Refusal::Wrong(text.len() + 1, reason))?;
    if reader.postfix.len() > MOST {
        return Err(Refusal::Bytes);
    }
    Ok(reader.postfix)
}

/// What was read last, and so what may stand next.
enum State {
    /// An item or "(" is wanted.
    Item,
    /// Inside a name.
    Name(Vec<u8>),
    /// Behind "#", with so many digits.
    Hash { digits: usize, id: u16 },
    /// An operator is wanted.
    Operator(u16),
    /// Behind "=" or "!".
    Equals(u16, &'static str),
    /// Straight behind "<" or ">".
    Straight(u16, &'static str),
    /// A constant is wanted.
    Constant(Front),
    /// Behind a digit of a number.
    Number(Front, u32),
    /// Behind the ":" of a number.
    Width(Front, u32),
    /// In a string, behind one of its bytes.
    String(Front, Vec<u8>),
    /// Behind the "\" of an escape.
    Escape(Front, Vec<u8>),
    /// Behind "\x".
    High(Front, Vec<u8>),
    /// Behind "\x" and a digit.
    Low(Front, Vec<u8>, u8),
    /// "&&", "||", ")" or the end is wanted.
    Connective,
    /// Behind the first "&" or "|".
    Half(u8),
}

/// A relation up to its operator.
#[derive(Clone, Copy)]
struct Front {
    id: u16,
    operator: &'static str,
}

impl Front {
    /// Whether a string may stand behind it.
    fn takes_string(self) -> bool {
        self.operator == "==" || self.operator == "!="
    }

    fn bytes(self, kind: u8, constant: &[u8]) -> Vec<u8> {
        let mut codes = OPERATORS.iter();
        let code = codes
            .position(|operator| *operator == self.operator)
            .expect("an operator of the table");
        let mut bytes = vec![0x80 + 16 * code as u8 + kind];
        bytes.extend(self.id.to_le_bytes());
        bytes.push(constant.len() as u8);
        bytes.extend(constant);
        bytes
    }

    fn number(self, value: u32, width: usize) -> Vec<u8> {
        self.bytes(0, &value.to_le_bytes()[..width])
    }
}

/// What waits on the stack for its right side.
#[derive(Clone, Copy, PartialEq)]
enum Waiting {
    Bracket,
    Connective(u8),
}

struct Reader {
    state: State,
    waiting: Vec<Waiting>,
    /// How many brackets are open.
    open: usize,
    postfix: Vec<u8>,
}

impl Reader {
    fn new() -> Reader {
        Reader {
            state: State::Item,
            waiting: Vec::new(),
            open: 0,
            postfix: Vec::new(),
        }
    }

    /// Takes the next byte of the text.
    fn step(&mut self, byte: u8) -> Result<(), Reason> {
        let state = std::mem::replace(&mut self.state, State::Item);
        self.state = match state {
            State::Item => self.item(byte)?,
            State::Name(front) => name(front, byte)?,
            State::Hash { digits, id } => hash(digits, id, byte)?,
            State::Operator(id) => operator(id, byte)?,
            State::Equals(id, operator) => match byte {
                b'=' => State::Constant(Front { id, operator }),
                _ => return Err(Reason::Operator),
            },
            State::Straight(id, operator) => straight(id, operator, byte)?,
            State::Constant(front) => constant(front, byte)?,
            State::Number(front, value) => self.number(front, value, byte)?,
            State::Width(front, value) => self.width(front, value, byte)?,
            State::String(front, string) => self.string(front, string, byte)?,
            State::Escape(front, string) => escape(front, string, byte)?,
            State::High(front, string) => match hex_digit(byte) {
                Some(high) => State::Low(front, string, high),
                None => return Err(Reason::String),
            },
            State::Low(front, string, high) => low(front, string, high, byte)?,
            State::Connective => self.connective(byte)?,
            State::Half(first) if byte == first => {
                self.join(first);
                State::Item
            }
            State::Half(_) => return Err(Reason::Connective),
        };
        Ok(())
    }

    /// The text ends here.
    fn end(&mut self) -> Result<(), Reason> {
        match &self.state {
            State::Item | State::Name(_) | State::Hash { .. } => return Err(Reason::Item),
            State::Operator(_) | State::Equals(..) => return Err(Reason::Operator),
            State::Straight(..) | State::Constant(_) => return Err(Reason::Constant),
            State::Width(..) => return Err(Reason::Width),
            State::String(..) | State::Escape(..) | State::High(..) | State::Low(..) => {
                return Err(Reason::String)
            }
            State::Half(_) => return Err(Reason::Connective),
            State::Number(front, value) => {
                let (front, value) = (*front, *value);
                self.number_ends(front, value);
            }
            State::Connective => {}
        }
        if self.open > 0 {
            return Err(Reason::Bracket);
        }
        self.pop_connectives(|_| true);
        Ok(())
    }

    fn item(&mut self, byte: u8) -> Result<State, Reason> {
        match byte {
            b' ' | b'\t' => Ok(State::Item),
            b'(' if self.open == DEEPEST => Err(Reason::Deeper),
            b'(' => {
                self.open += 1;
                self.waiting.push(Waiting::Bracket);
                Ok(State::Item)
            }
            b'#' => Ok(State::Hash { digits: 0, id: 0 }),
            _ => name(Vec::new(), byte),
        }
    }

    fn number(&mut self, front: Front, value: u32, byte: u8) -> Result<State, Reason> {
        match byte {
            b'0'..=b'9' => {
                let larger = value.checked_mul(10);
                let larger = larger.and_then(|value| value.checked_add(u32::from(byte - b'0')));
                Ok(State::Number(front, larger.ok_or(Reason::Large)?))
            }
            b':' => Ok(State::Width(front, value)),
            _ => {
                self.number_ends(front, value);
                self.connective(byte)
            }
        }
    }

    fn number_ends(&mut self, front: Front, value: u32) {
        let width = taken_width(front.id, value);
        self.postfix.extend(front.number(value, width));
    }

    fn width(&mut self, front: Front, value: u32, byte: u8) -> Result<State, Reason> {
        let width = match byte {
            b'1' | b'2' | b'4' => usize::from(byte - b'0'),
            _ => return Err(Reason::Width),
        };
        if width < least_width(value) {
            return Err(Reason::Width);
        }
        self.postfix.extend(front.number(value, width));
        Ok(State::Connective)
    }

    fn string(&mut self, front: Front, mut string: Vec<u8>, byte: u8) -> Result<State, Reason> {
        match byte {
            b'"' => {
                self.postfix.extend(front.bytes(3, &string));
                Ok(State::Connective)
            }
            b'*' if stars(&string) == STARS => Err(Reason::Stars),
            b' '..=b'~' if string.len() == STRING_MOST => Err(Reason::Long),
            b'\\' => Ok(State::Escape(front, string)),
            b' '..=b'~' => {
                string.push(byte);
                Ok(State::String(front, string))
            }
            _ => Err(Reason::String),
        }
    }

    fn connective(&mut self, byte: u8) -> Result<State, Reason> {
        match byte {
            b' ' | b'\t' => Ok(State::Connective),
            b'&' | b'|' => Ok(State::Half(byte)),
            b')' if self.open > 0 => {
                self.open -= 1;
                self.pop_connectives(|_| true);
                self.waiting.pop();
                Ok(State::Connective)
            }
            _ => Err(Reason::Connective),
        }
    }

    /// A whole "&&" or "||": what binds as close or closer, and stands before
    /// it, has its right side now.
    fn join(&mut self, sign: u8) {
        if sign == b'&' {
            self.pop_connectives(|waiting| waiting == AND);
            self.waiting.push(Waiting::Connective(AND));
        } else {
            self.pop_connectives(|_| true);
            self.waiting.push(Waiting::Connective(OR));
        }
    }

    /// Writes the waiting connectives down to the last bracket, while they
    /// are of that kind.
    fn pop_connectives(&mut self, goes: impl Fn(u8) -> bool) {
        while let Some(&Waiting::Connective(code)) = self.waiting.last() {
            if !goes(code) {
                return;
            }
            self.postfix.push(code);
            self.waiting.pop();
        }
    }
}

fn name(mut front: Vec<u8>, byte: u8) -> Result<State, Reason> {
    front.push(byte);
    if !begins_a_name(&front) {
        return Err(Reason::Item);
    }
    // No name is the beginning of another, so a whole one ends here.
    Ok(match id_of(&front) {
        Some(id) => State::Operator(id),
        None => State::Name(front),
    })
}

fn hash(digits: usize, id: u16, byte: u8) -> Result<State, Reason> {
    let digit = hex_digit(byte).ok_or(Reason::Item)?;
    let id = id << 4 | u16::from(digit);
    Ok(match digits {
        3 => State::Operator(id),
        _ => State::Hash {
            digits: digits + 1,
            id,
        },
    })
}

fn operator(id: u16, byte: u8) -> Result<State, Reason> {
    Ok(match byte {
        b' ' | b'\t' => State::Operator(id),
        b'=' => State::Equals(id, "=="),
        b'!' => State::Equals(id, "!="),
        b'<' => State::Straight(id, "<"),
        b'>' => State::Straight(id, ">"),
        _ => return Err(Reason::Operator),
    })
}

fn straight(id: u16, operator: &'static str, byte: u8) -> Result<State, Reason> {
    let longer = if operator == "<" { "<=" } else { ">=" };
    match byte {
        b'=' => Ok(State::Constant(Front {
            id,
            operator: longer,
        })),
        _ => constant(Front { id, operator }, byte),
    }
}

fn constant(front: Front, byte: u8) -> Result<State, Reason> {
    match byte {
        b' ' | b'\t' => Ok(State::Constant(front)),
        b'0'..=b'9' => Ok(State::Number(front, u32::from(byte - b'0'))),
        b'"' if front.takes_string() => Ok(State::String(front, Vec::new())),
        b'"' => Err(Reason::Order),
        _ => Err(Reason::Constant),
    }
}

fn escape(front: Front, mut string: Vec<u8>, byte: u8) -> Result<State, Reason> {
    match byte {
        b'"' | b'\\' => {
            string.push(byte);
            Ok(State::String(front, string))
        }
        b'x' => Ok(State::High(front, string)),
        _ => Err(Reason::String),
    }
}

/// The last digit of an escape.
fn low(front: Front, mut string: Vec<u8>, high: u8, byte: u8) -> Result<State, Reason> {
    let escaped = high << 4 | hex_digit(byte).ok_or(Reason::String)?;
    if escaped == b'*' && stars(&string) == STARS {
        return Err(Reason::Stars);
    }
    string.push(escaped);
    Ok(State::String(front, string))
}

/// Hex digits are of either case.
fn hex_digit(byte: u8) -> Option<u8> {
    char::from(byte).to_digit(16).map(|digit| digit as u8)
}

fn stars(string: &[u8]) -> usize {
    string.iter().filter(|&&byte| byte == b'*').count()
}
