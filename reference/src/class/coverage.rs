//! A count of what the questions of class days reach: each answer, each
//! refusal, and each case of a connective.

use std::collections::BTreeMap;
use std::io::{self, Write};

use super::{Asked, Day, Question};
use crate::equation::{Equation, Symbol};
use crate::lines::{Reader, LINE_MOST};
use crate::paper::Reason;
use crate::script::{Driver, Unwatched};
use crate::why::{decided, truths};

/// The answers to either kind of question.
const EACH: [&str; 4] = ["matched", "unmatched", "refused 4", "refused 11"];

const SINGLE_ROWS: [&str; 11] = [
    "why, refused bytes",
    "why-bytes, refused 33",
    "why-bytes, refused 8",
    "why-bytes, of more than 256 bytes",
    "one relation named of one",
    "one relation named of several",
    "several relations named, not all",
    "several relations named, all",
    "more than ten relations named",
    "line that can't be read",
    "line too long",
];

pub struct ClassCoverage {
    counts: BTreeMap<String, usize>,
}

impl Default for ClassCoverage {
    fn default() -> ClassCoverage {
        ClassCoverage::new()
    }
}

/// The row of a connective whose sides have these truths.
fn connective_row(is_and: bool, left: bool, right: bool) -> String {
    let name = if is_and { "AND" } else { "OR" };
    format!("{name} of {left} and {right}")
}

fn rows() -> Vec<String> {
    let mut rows: Vec<String> = SINGLE_ROWS.iter().map(|row| row.to_string()).collect();
    for answer in EACH {
        rows.push(format!("why, {answer}"));
        rows.push(format!("why-bytes, {answer}"));
    }
    for reason in Reason::ALL {
        rows.push(format!("why, wrong {}", reason.word()));
    }
    for sides in 0..8 {
        let bit = |place: u32| sides >> place & 1 == 1;
        rows.push(connective_row(bit(0), bit(1), bit(2)));
    }
    rows
}

impl ClassCoverage {
    pub fn new() -> ClassCoverage {
        ClassCoverage {
            counts: rows().into_iter().map(|row| (row, 0)).collect(),
        }
    }

    /// The rows that nothing reached.
    pub fn missing(&self) -> Vec<&str> {
        let empty = self.counts.iter().filter(|(_, count)| **count == 0);
        empty.map(|(row, _)| row.as_str()).collect()
    }

    /// The rows that were counted and are not among those foreseen.
    pub fn unforeseen(&self) -> Vec<&str> {
        let foreseen = rows();
        let other = self.counts.keys().filter(|row| !foreseen.contains(row));
        other.map(String::as_str).collect()
    }

    pub fn print(&self, output: &mut impl Write) -> io::Result<()> {
        for (row, count) in &self.counts {
            writeln!(output, "{count}\t{row}")?;
        }
        Ok(())
    }

    fn count(&mut self, row: impl Into<String>) {
        *self.counts.entry(row.into()).or_default() += 1;
    }

    /// Runs a script and counts what its questions reach.
    pub fn note(&mut self, script: &[u8]) {
        let mut day = Day {
            driver: Driver::new(Unwatched),
        };
        let script = script.strip_suffix(b"\n").unwrap_or(script);
        for line in script.split(|&byte| byte == b'\n') {
            if line.len() > LINE_MOST {
                return self.count("line too long");
            }
            if let Some(question) = Question::parse(line) {
                self.note_question(&day, &question);
            } else if !day.read(line, &mut io::sink()).expect("no writing") {
                return self.count("line that can't be read");
            }
        }
    }

    fn note_question(&mut self, day: &Day<Unwatched>, question: &Question) {
        let word = match question.asked {
            Asked::Text(_) => "why",
            Asked::Bytes(_) => "why-bytes",
        };
        let answer = day.answer(question);
        let fields: Vec<&str> = answer.split('\t').skip(2).collect();
        match fields[0] {
            "wrong" => self.count(format!("{word}, wrong {}", fields[2])),
            "refused" => self.count(format!("{word}, refused {}", fields[1])),
            verdict => {
                self.count(format!("{word}, {verdict}"));
                self.note_reasons(day, question);
            }
        }
    }

    /// The question was answered by relations.
    fn note_reasons(&mut self, day: &Day<Unwatched>, question: &Question) {
        let bytes = question.equation().expect("an equation that was taken");
        if bytes.len() > 256 {
            self.count("why-bytes, of more than 256 bytes");
        }
        let equation = Equation::parse(&bytes).expect("an equation that was taken");
        let store = &day.driver.server.store;
        let place = store.find(question.number).expect("a file");
        let truths = truths(&equation, &store.contents(place));
        let (_, reasons) = decided(equation.symbols(), &truths);
        self.count(match reasons.len() {
            1 if truths.len() == 1 => "one relation named of one",
            1 => "one relation named of several",
            named if named < truths.len() => "several relations named, not all",
            _ => "several relations named, all",
        });
        if reasons.len() > 10 {
            self.count("more than ten relations named");
        }
        for row in connectives(equation.symbols(), &truths) {
            self.count(row);
        }
    }
}

/// The rows of all connectives of an equation.
fn connectives(symbols: &[Symbol], truths: &[bool]) -> Vec<String> {
    let mut rows = Vec::new();
    let mut truths = truths.iter();
    let mut stack: Vec<bool> = Vec::new();
    for symbol in symbols {
        let truth = match symbol {
            Symbol::Relation(_) => *truths.next().expect("a truth for each relation"),
            connective => {
                let right = stack.pop().expect("an accepted equation");
                let left = stack.pop().expect("an accepted equation");
                let is_and = connective == &Symbol::And;
                rows.push(connective_row(is_and, left, right));
                match is_and {
                    true => left && right,
                    false => left || right,
                }
            }
        };
        stack.push(truth);
    }
    rows
}
