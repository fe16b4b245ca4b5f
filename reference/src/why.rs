//! Why a file is listed or not (request A5): the relations of an equation that
//! decided, by their numbers in the equation from 1, rising. "For a true AND or
//! a false OR it gives the reasons of both sides; for a false AND or a true OR
//! only those of the first operand that settles it."

use crate::equation::{Equation, Fault, Symbol};
use crate::refusal::{NO_SUCH_FILE, PARTIAL_FILE};
use crate::store::Store;

/// How the file fared in a SELECT with the equation.
#[derive(Clone, Copy, Debug, PartialEq, Eq)]
pub enum Verdict {
    Matched,
    Unmatched,
    /// It matched and is not selected, since so many older files matched.
    Beyond(usize),
}

#[derive(Clone, Debug, PartialEq, Eq)]
pub struct Why {
    pub verdict: Verdict,
    /// The relations that decided. Each has the truth of the whole.
    pub reasons: Vec<usize>,
}

/// The truth of a part of an equation, and the relations that decide it.
type Part = (bool, Vec<usize>);

/// The truth of an accepted equation and its reasons, where its relations have
/// these truths, in the order of its bytes.
pub fn decided(symbols: &[Symbol], truths: &[bool]) -> Part {
    let mut stack: Vec<Part> = Vec::new();
    let mut relations = 0;
    for symbol in symbols {
        let part = match symbol {
            Symbol::Relation(_) => {
                relations += 1;
                (truths[relations - 1], vec![relations])
            }
            connective => {
                let right = stack.pop().expect("an accepted equation");
                let left = stack.pop().expect("an accepted equation");
                joined(connective == &Symbol::And, left, right)
            }
        };
        stack.push(part);
    }
    stack.pop().expect("an accepted equation")
}

/// Both sides under an AND or OR. A side that is false settles an AND, one
/// that is true an OR.
fn joined(is_and: bool, left: Part, right: Part) -> Part {
    let settling = !is_and;
    if left.0 == settling {
        return left;
    }
    if right.0 == settling {
        return right;
    }
    (!settling, [left.1, right.1].concat())
}

/// The truths of the equation's relations on a file.
pub fn truths(equation: &Equation, file: &[u8]) -> Vec<bool> {
    let mut truths = Vec::new();
    for symbol in equation.symbols() {
        if let Symbol::Relation(relation) = symbol {
            truths.push(relation.holds(file));
        }
    }
    truths
}

/// Why the file of that number is or is not among the oldest `maxsel` files
/// that match the equation. Refusals: those of the equation, then 4, then 11.
pub fn why(store: &Store, maxsel: usize, equation: &[u8], number: u32) -> Result<Why, u8> {
    let equation = Equation::parse(equation).map_err(Fault::number)?;
    let place = store.find(number).ok_or(NO_SUCH_FILE)?;
    let time = store.file(place).upload_time.ok_or(PARTIAL_FILE)?;
    let truths = truths(&equation, &store.contents(place));
    let (truth, reasons) = decided(equation.symbols(), &truths);
    let older = older_matches(store, &equation, time);
    let verdict = match truth {
        false => Verdict::Unmatched,
        true if older < maxsel => Verdict::Matched,
        true => Verdict::Beyond(older),
    };
    Ok(Why { verdict, reasons })
}

/// How many complete files with a smaller upload time match.
fn older_matches(store: &Store, equation: &Equation, time: u32) -> usize {
    let places = 0..store.places.len();
    let older = |place: &usize| match &store.places[*place] {
        Some(file) => matches!(file.upload_time, Some(other) if other < time),
        None => false,
    };
    let matching = |place: &usize| equation.holds(&store.contents(*place));
    places.filter(older).filter(matching).count()
}
