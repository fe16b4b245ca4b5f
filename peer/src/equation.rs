//! Selection equations. An equation is parsed once into its relations in their order, each with the relation that is to be looked at next where it holds
//! and where it does not; relations that can change nothing are so passed over.

use crate::header::{any_item, field, BODY_OFFSET, UPLOAD_TIME};
use crate::packet::{number, MOST};
use crate::store::{File, Store};

const END: u8 = 0;
const AND: u8 = 1;
const OR: u8 = 2;
/// What stands for a relation among the symbols.
const RELATION: u8 = 0x80;
/// The most relations that a packet has room for.
const RELATIONS: usize = MOST / 4;
/// The most `*` of a constant.
const STARS: usize = 4;

// What is next where the equation's truth is known.
const TRUE: u8 = 254;
const FALSE: u8 = 255;

/// For each comparison, whether it holds where the file's number is less, equal or greater: bits 0, 1 and 2.
const HOLDS: [u8; 6] = [0b010, 0b100, 0b001, 0b101, 0b110, 0b011];
const EQUAL: u8 = HOLDS[0];
const NOT_EQUAL: u8 = HOLDS[3];

#[derive(Clone, Copy)]
struct Relation<'a> {
    id: u16,
    /// One of `HOLDS`.
    holds: u8,
    text: bool,
    constant: &'a [u8],
    /// The constant of a number relation.
    value: u32,
    if_true: u8,
    if_false: u8,
}

pub struct Equation<'a> {
    relations: [Relation<'a>; RELATIONS],
}

impl<'a> Equation<'a> {
    /// None where the equation is refused.
    pub fn parse(bytes: &'a [u8]) -> Option<Equation<'a>> {
        let mut relations = [NONE; RELATIONS];
        let mut symbols = [RELATION; 2 * RELATIONS];
        let (mut count, mut length, mut depth) = (0, 0, 0);
        let mut rest = bytes;
        while let [code, after @ ..] = rest {
            rest = after;
            match *code {
                END if rest.is_empty() => break,
                AND | OR if depth >= 2 => {
                    symbols[length] = *code;
                    depth -= 1;
                }
                RELATION.. => {
                    let (relation, after) = Relation::parse(*code, rest)?;
                    rest = after;
                    relations[count] = relation;
                    count += 1;
                    depth += 1;
                }
                _ => return None,
            }
            length += 1;
        }
        if depth != 1 {
            return None;
        }
        link(&mut relations[..count], &symbols[..length]);
        Some(Equation { relations })
    }

    /// Its truth on a complete file.
    pub fn holds(&self, store: &Store, file: &File) -> bool {
        let mut next = 0;
        while next < TRUE {
            let relation = &self.relations[usize::from(next)];
            next = match relation.holds(store, file) {
                true => relation.if_true,
                false => relation.if_false,
            };
        }
        next == TRUE
    }
}

/// Says of each relation which is next. The symbols are gone through from the last, so that an operator comes before its operands, and the right operand before
/// the left; then the relation met last is the first of the right operand, at which a left one goes on that does not settle the outcome.
fn link(relations: &mut [Relation], symbols: &[u8]) {
    // operands that are still to come: what is next after them, and the operator whose left one they are
    let mut operands = [(TRUE, FALSE, RELATION); RELATIONS];
    let mut count = 1;
    let mut at = relations.len();
    for &symbol in symbols.iter().rev() {
        count -= 1;
        let (mut if_true, mut if_false, operator) = operands[count];
        match operator {
            AND => if_true = at as u8,
            OR => if_false = at as u8,
            _ => {}
        }
        if symbol == RELATION {
            at -= 1;
            relations[at].if_true = if_true;
            relations[at].if_false = if_false;
        } else {
            operands[count] = (if_true, if_false, symbol);
            operands[count + 1] = (if_true, if_false, RELATION);
            count += 2;
        }
    }
}

const NONE: Relation = Relation {
    id: 0,
    holds: 0,
    text: false,
    constant: &[],
    value: 0,
    if_true: FALSE,
    if_false: FALSE,
};

impl<'a> Relation<'a> {
    /// The relation with that code and the bytes after it.
    fn parse(code: u8, bytes: &'a [u8]) -> Option<(Relation<'a>, &'a [u8])> {
        let holds = *HOLDS.get(usize::from(code >> 4 & 7))?;
        let (low, high, length, rest) = match bytes {
            [low, high, length, rest @ ..] => (*low, *high, usize::from(*length), rest),
            _ => return None,
        };
        let constant = rest.get(..length)?;
        let text = match code & 15 {
            0 => false,
            3 => true,
            _ => return None,
        };
        let stars = || constant.iter().filter(|byte| **byte == b'*').count();
        if text && (holds != EQUAL && holds != NOT_EQUAL || stars() > STARS) {
            return None;
        }
        let value = match value(constant) {
            None if !text => return None,
            value => value.unwrap_or(0),
        };
        let relation = Relation {
            id: u16::from_le_bytes([low, high]),
            holds,
            text,
            constant,
            value,
            ..NONE
        };
        Some((relation, &rest[length..]))
    }

    fn holds(&self, store: &Store, file: &File) -> bool {
        match self.id {
            UPLOAD_TIME => self.is_met_by(&file.upload_time.to_le_bytes()),
            1..=BODY_OFFSET => self.is_met_by(field(store, file, self.id)),
            id => any_item(store, file, id, |data| self.is_met_by(data)),
        }
    }

    fn is_met_by(&self, data: &[u8]) -> bool {
        if self.text {
            return matches(self.constant, data) == (self.holds == EQUAL);
        }
        match value(data) {
            Some(value) => self.holds >> (value.cmp(&self.value) as i8 + 1) & 1 != 0,
            None => false,
        }
    }
}

/// The number of 1, 2 or 4 bytes.
fn value(data: &[u8]) -> Option<u32> {
    match *data {
        [byte] => Some(u32::from(byte)),
        [low, high] => Some(u32::from(u16::from_le_bytes([low, high]))),
        [_, _, _, _] => Some(number(data)),
        _ => None,
    }
}

/// Whether the constant, with its `*` and `?`, matches the whole text. Each `*` first stands for the empty run; where what follows does not match, the
/// last one takes a byte more.
fn matches(constant: &[u8], text: &[u8]) -> bool {
    let (mut c, mut t) = (0, 0);
    let mut star = None;
    while t < text.len() {
        match constant.get(c) {
            Some(b'*') => {
                c += 1;
                star = Some((c, t));
            }
            Some(byte) if *byte == b'?' || byte.eq_ignore_ascii_case(&text[t]) => {
                c += 1;
                t += 1;
            }
            _ => match star {
                Some((after, from)) => {
                    c = after;
                    t = from + 1;
                    star = Some((after, t));
                }
                None => return false,
            },
        }
    }
    constant[c..].iter().all(|byte| *byte == b'*')
}
