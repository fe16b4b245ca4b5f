//! From accepted bytes to text with the fewest brackets. The parts of the
//! text stand on a stack, as the results do when an equation is evaluated.

use super::names::{name_of, taken_width, OPERATORS};
use super::{Refusal, DEEPEST, MOST};
use crate::equation::Equation;
use crate::packet::number;

const END: u8 = 0;
const AND: u8 = 1;
const OR: u8 = 2;

/// The text of accepted bytes, or why there is none.
pub fn to_text(bytes: &[u8]) -> Result<Vec<u8>, Refusal> {
    Equation::parse(bytes).map_err(|fault| Refusal::Number(fault.number()))?;
    let mut parts: Vec<Part> = Vec::new();
    let mut marked = false;
    let mut rest = bytes;
    // The bytes are accepted: no other codes come, and nothing is lacking.
    while let [code, after @ ..] = rest {
        rest = match *code {
            END => {
                marked = true;
                after
            }
            AND | OR => {
                let right = parts.pop().expect("an accepted equation");
                let left = parts.pop().expect("an accepted equation");
                parts.push(Part::joined(*code, left, right));
                after
            }
            _ => {
                let length = 4 + usize::from(rest[3]);
                parts.push(Part::relation(&rest[..length]));
                &rest[length..]
            }
        };
    }
    let whole = parts.pop().expect("an accepted equation");
    if marked {
        Err(Refusal::Mark)
    } else if whole.nested > DEEPEST {
        Err(Refusal::Deeper)
    } else if bytes.len() > MOST {
        Err(Refusal::Bytes)
    } else {
        Ok(whole.text)
    }
}

/// What a part of the text is, which decides where it needs brackets.
#[derive(Clone, Copy, PartialEq)]
enum Kind {
    Relation,
    And,
    Or,
}

struct Part {
    kind: Kind,
    /// How deep its brackets are nested.
    nested: usize,
    text: Vec<u8>,
}

impl Part {
    fn relation(bytes: &[u8]) -> Part {
        let id = u16::from_le_bytes([bytes[1], bytes[2]]);
        let constant = &bytes[4..];
        let mut text = match name_of(id) {
            Some(name) => name.to_string(),
            None => format!("#{id:04x}"),
        }
        .into_bytes();
        let operator = OPERATORS[usize::from(bytes[0] >> 4 & 7)];
        text.extend(format!(" {operator} ").as_bytes());
        text.extend(match bytes[0] & 15 {
            0 => number_text(id, constant),
            _ => string_text(constant),
        });
        Part {
            kind: Kind::Relation,
            nested: 0,
            text,
        }
    }

    /// AND or OR of two parts. Each groups from the left, and AND binds
    /// closer, so only these need brackets: an OR under an AND, an AND on the
    /// right of an AND, an OR on the right of an OR.
    fn joined(code: u8, left: Part, right: Part) -> Part {
        let (kind, sign) = match code {
            AND => (Kind::And, " && "),
            _ => (Kind::Or, " || "),
        };
        let or_under_and = |part: &Part| kind == Kind::And && part.kind == Kind::Or;
        let left = match or_under_and(&left) {
            true => left.in_brackets(),
            false => left,
        };
        let right = match or_under_and(&right) || right.kind == kind {
            true => right.in_brackets(),
            false => right,
        };
        Part {
            kind,
            nested: left.nested.max(right.nested),
            text: [&left.text, sign.as_bytes(), &right.text].concat(),
        }
    }

    fn in_brackets(self) -> Part {
        Part {
            kind: self.kind,
            nested: self.nested + 1,
            text: [b"(", &self.text[..], b")"].concat(),
        }
    }
}

/// The width is written only where it is not the one that would be taken.
fn number_text(id: u16, constant: &[u8]) -> Vec<u8> {
    let value = number(constant);
    let width = constant.len();
    match width == taken_width(id, value) {
        true => format!("{value}"),
        false => format!("{value}:{width}"),
    }
    .into_bytes()
}

fn string_text(constant: &[u8]) -> Vec<u8> {
    let mut text = vec![b'"'];
    for &byte in constant {
        match byte {
            b'"' | b'\\' => text.extend([b'\\', byte]),
            b' '..=b'~' => text.push(byte),
            _ => text.extend(format!("\\x{byte:02x}").as_bytes()),
        }
    }
    text.push(b'"');
    text
}
