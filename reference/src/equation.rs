//! Selection equations: their parsing, their truth on a file, and the match of
//! text with wildcards.
//!
//! An equation is postfix. A relation is a byte with bit 7 set, then an item
//! as in a header; 01 is AND, 02 is OR, 00 is the end mark, which may be left
//! out.
//!
//! "A relation holds if any item of that id in the header meets it. So a file
//! to A and B is both equal to A and not equal to A." (request A2)

use std::cmp::Ordering;

use crate::header;
use crate::packet::number;
use crate::refusal::{OUT_OF_TABLE, POORLY_FORMED_SELECT};

/// The most equation bytes that the evaluator takes.
pub const MOST: usize = 2047;
/// The entries of the evaluation stack.
pub const STACK: usize = 100;
/// The most `*` that one constant may have.
pub const STARS: usize = 4;

const END: u8 = 0x00;
const AND: u8 = 0x01;
const OR: u8 = 0x02;

#[derive(Clone, Copy, Debug, PartialEq, Eq)]
pub enum Comparison {
    Equal,
    Greater,
    Less,
    NotEqual,
    GreaterOrEqual,
    LessOrEqual,
}

impl Comparison {
    /// All comparisons, each at the place that is its code in bits 6 to 4.
    pub const ALL: [Comparison; 6] = [
        Comparison::Equal,
        Comparison::Greater,
        Comparison::Less,
        Comparison::NotEqual,
        Comparison::GreaterOrEqual,
        Comparison::LessOrEqual,
    ];

    /// Whether it holds where the file's number stands so to the constant.
    fn admits(self, ordering: Ordering) -> bool {
        match self {
            Comparison::Equal => ordering == Ordering::Equal,
            Comparison::Greater => ordering == Ordering::Greater,
            Comparison::Less => ordering == Ordering::Less,
            Comparison::NotEqual => ordering != Ordering::Equal,
            Comparison::GreaterOrEqual => ordering != Ordering::Less,
            Comparison::LessOrEqual => ordering != Ordering::Greater,
        }
    }
}

#[derive(Clone, Debug, PartialEq, Eq)]
pub enum Relation {
    Number {
        comparison: Comparison,
        id: u16,
        constant: u32,
    },
    /// Text knows only equal and not equal.
    Text {
        equal: bool,
        id: u16,
        constant: Vec<u8>,
    },
}

impl Relation {
    /// The id of the items that it asks about.
    pub fn id(&self) -> u16 {
        match self {
            Relation::Number { id, .. } | Relation::Text { id, .. } => *id,
        }
    }

    /// The truth of the relation on a file: it "holds if any item of that id
    /// in the header meets it", so it is false where the item is absent.
    pub fn holds(&self, file: &[u8]) -> bool {
        let items = header::each(file, self.id());
        items.iter().any(|data| self.is_met_by(data))
    }

    /// Whether one item of the id, with these data, meets the relation. One not
    /// 1, 2 or 4 bytes long meets no number relation, not equal included.
    pub fn is_met_by(&self, data: &[u8]) -> bool {
        match self {
            Relation::Number {
                comparison,
                constant,
                ..
            } => is_number(data) && comparison.admits(number(data).cmp(constant)),
            Relation::Text {
                equal, constant, ..
            } => matches(constant, data) == *equal,
        }
    }
}

/// Numbers have 1, 2 or 4 bytes.
pub fn is_number(data: &[u8]) -> bool {
    matches!(data.len(), 1 | 2 | 4)
}

#[derive(Clone, Debug, PartialEq, Eq)]
pub enum Symbol {
    Relation(Relation),
    And,
    Or,
}

/// Why an equation is refused.
#[derive(Clone, Copy, Debug, PartialEq, Eq, PartialOrd, Ord)]
pub enum Fault {
    /// More bytes than the evaluator takes. This one is local.
    TooLong,
    /// A byte with bit 7 clear that is neither AND, OR nor the end mark.
    UnknownCode,
    /// Bits 6 to 4 hold 6 or 7.
    UnknownComparison,
    /// Bits 3 to 0 hold neither 0 nor 3.
    UnknownKind,
    /// Text with another relation than equal or not equal.
    OrderOnText,
    /// A number's constant not 1, 2 or 4 bytes long.
    WrongLength,
    TooManyStars,
    BytesRunOut,
    BytesAfterEnd,
    StackEmpty,
    StackFull,
    /// Not exactly one result is left.
    NotOneResult,
}

impl Fault {
    pub const ALL: [Fault; 12] = [
        Fault::TooLong,
        Fault::UnknownCode,
        Fault::UnknownComparison,
        Fault::UnknownKind,
        Fault::OrderOnText,
        Fault::WrongLength,
        Fault::TooManyStars,
        Fault::BytesRunOut,
        Fault::BytesAfterEnd,
        Fault::StackEmpty,
        Fault::StackFull,
        Fault::NotOneResult,
    ];

    pub fn number(self) -> u8 {
        match self {
            Fault::TooLong => OUT_OF_TABLE,
            _ => POORLY_FORMED_SELECT,
        }
    }
}

/// An accepted equation.
#[derive(Clone, Debug, PartialEq, Eq)]
pub struct Equation {
    symbols: Vec<Symbol>,
}

impl Equation {
    pub fn parse(bytes: &[u8]) -> Result<Equation, Fault> {
        if bytes.len() > MOST {
            return Err(Fault::TooLong);
        }
        let symbols = symbols(bytes)?;
        check_stack(&symbols)?;
        Ok(Equation { symbols })
    }

    pub fn symbols(&self) -> &[Symbol] {
        &self.symbols
    }

    /// The truth of the equation on a file.
    pub fn holds(&self, file: &[u8]) -> bool {
        let mut stack = Vec::new();
        for symbol in &self.symbols {
            let result = match symbol {
                Symbol::Relation(relation) => relation.holds(file),
                Symbol::And => {
                    let (left, right) = operands(&mut stack);
                    left && right
                }
                Symbol::Or => {
                    let (left, right) = operands(&mut stack);
                    left || right
                }
            };
            stack.push(result);
        }
        stack[0]
    }
}

/// The two results on top of the stack; an accepted equation has them.
fn operands(stack: &mut Vec<bool>) -> (bool, bool) {
    let right = stack.pop().expect("an accepted equation");
    let left = stack.pop().expect("an accepted equation");
    (left, right)
}

fn symbols(bytes: &[u8]) -> Result<Vec<Symbol>, Fault> {
    let mut symbols = Vec::new();
    let mut rest = bytes;
    while let [code, after @ ..] = rest {
        rest = after;
        match *code {
            END if after.is_empty() => {}
            END => return Err(Fault::BytesAfterEnd),
            AND => symbols.push(Symbol::And),
            OR => symbols.push(Symbol::Or),
            0x80.. => {
                let (relation, after) = relation(*code, after)?;
                symbols.push(Symbol::Relation(relation));
                rest = after;
            }
            _ => return Err(Fault::UnknownCode),
        }
    }
    Ok(symbols)
}

/// The relation with that code and the bytes after it.
fn relation(code: u8, bytes: &[u8]) -> Result<(Relation, &[u8]), Fault> {
    let comparison = *Comparison::ALL
        .get(usize::from(code >> 4 & 7))
        .ok_or(Fault::UnknownComparison)?;
    let (low, high, length, rest) = match bytes {
        [low, high, length, rest @ ..] => (low, high, length, rest),
        _ => return Err(Fault::BytesRunOut),
    };
    let id = u16::from_le_bytes([*low, *high]);
    let length = usize::from(*length);
    if rest.len() < length {
        return Err(Fault::BytesRunOut);
    }
    let (constant, after) = rest.split_at(length);
    let relation = match code & 0x0f {
        0 => number_relation(comparison, id, constant)?,
        3 => text_relation(comparison, id, constant)?,
        _ => return Err(Fault::UnknownKind),
    };
    Ok((relation, after))
}

fn number_relation(comparison: Comparison, id: u16, constant: &[u8]) -> Result<Relation, Fault> {
    if !is_number(constant) {
        return Err(Fault::WrongLength);
    }
    Ok(Relation::Number {
        comparison,
        id,
        constant: number(constant),
    })
}

fn text_relation(comparison: Comparison, id: u16, constant: &[u8]) -> Result<Relation, Fault> {
    let equal = match comparison {
        Comparison::Equal => true,
        Comparison::NotEqual => false,
        _ => return Err(Fault::OrderOnText),
    };
    if constant.iter().filter(|&&byte| byte == b'*').count() > STARS {
        return Err(Fault::TooManyStars);
    }
    Ok(Relation::Text {
        equal,
        id,
        constant: constant.to_vec(),
    })
}

/// Whether the stack never runs empty nor past its size, and ends with one result.
fn check_stack(symbols: &[Symbol]) -> Result<(), Fault> {
    let mut depth = 0;
    for symbol in symbols {
        match symbol {
            Symbol::Relation(_) if depth == STACK => return Err(Fault::StackFull),
            Symbol::Relation(_) => depth += 1,
            Symbol::And | Symbol::Or if depth < 2 => return Err(Fault::StackEmpty),
            Symbol::And | Symbol::Or => depth -= 1,
        }
    }
    if depth == 1 {
        Ok(())
    } else {
        Err(Fault::NotOneResult)
    }
}

/// Parses and evaluates at once.
pub fn evaluate(equation: &[u8], file: &[u8]) -> Result<bool, u8> {
    Equation::parse(equation)
        .map(|equation| equation.holds(file))
        .map_err(Fault::number)
}

/// Whether the constant matches the whole of the file's text. In the constant
/// `*` is any run, empty too, and `?` any one byte; ASCII letters are lowered
/// on both sides.
pub fn matches(constant: &[u8], text: &[u8]) -> bool {
    // reached[n]: the constant's first n bytes match the text read so far.
    let mut reached = vec![false; constant.len() + 1];
    reached[0] = true;
    pass_stars(constant, &mut reached);
    for byte in text {
        let mut next = vec![false; constant.len() + 1];
        for (at, wanted) in constant.iter().enumerate() {
            if !reached[at] {
                continue;
            }
            match wanted {
                b'*' => next[at] = true,
                b'?' => next[at + 1] = true,
                _ if wanted.eq_ignore_ascii_case(byte) => next[at + 1] = true,
                _ => {}
            }
        }
        pass_stars(constant, &mut next);
        reached = next;
    }
    reached[constant.len()]
}

/// A `*` can stand for the empty run, so the place after it is reached with it.
fn pass_stars(constant: &[u8], reached: &mut [bool]) {
    for (at, wanted) in constant.iter().enumerate() {
        if reached[at] && *wanted == b'*' {
            reached[at + 1] = true;
        }
    }
}
