//! The questions of a class's script in words. Whether a file is listed, and which relations decided, is what `classday` answers; the text of an
//! equation and of each of its relations is what `equations` prints for their bytes.
use std::collections::{BTreeSet, HashMap};
use std::io;

use crate::bytes::{plain, to_hex};
use crate::explain::{row, Row};
use crate::lesson::hex;
use crate::play::{Play, Step, SIZES};
use crate::programs::Home;
use crate::say::equation_reason;
use crate::script::{Asked, Command};
use crate::words::{count, local_refusal, refusal, Equations};

/// The bytes of the equations that are asked about, by the numbers of their lines.
pub type Postfix = HashMap<usize, Vec<u8>>;

/// The longest equation that is shown as it was typed, or as hex.
const SHOWN: usize = 120;

/// The bytes of each question's equation, in one run of `equations`; those of a wrong one are none.
pub fn postfix(play: &Play, home: &Home) -> io::Result<Postfix> {
    let mut known = Postfix::new();
    let (mut typed, mut lines) = (Vec::new(), Vec::new());
    for step in &play.steps {
        match &step.command {
            Some(Command::Why(_, Asked::Bytes(bytes))) => {
                known.insert(step.line, bytes.clone());
            }
            Some(Command::Why(_, Asked::Text(text))) => {
                typed.push([b"text\t", text.as_slice()].concat());
                lines.push(step.line);
            }
            _ => {}
        }
    }
    for (line, answer) in lines.into_iter().zip(home.equations(&typed)?) {
        if let Some(("bytes", digits)) = answer.split_once('\t') {
            known.insert(line, hex(digits.as_bytes(), 1).unwrap_or_default());
        }
    }
    Ok(known)
}

/// Each relation of an equation: a byte with bit 7 set, an id of two bytes, a length, and so many bytes.
fn relations(equation: &[u8]) -> Vec<&[u8]> {
    let mut found = Vec::new();
    let mut rest = equation;
    while let Some(&code) = rest.first() {
        let length = match (code & 128, rest.get(3)) {
            (128, Some(&length)) => 4 + usize::from(length),
            _ => 1,
        };
        if length > rest.len() {
            break;
        }
        if code & 128 != 0 {
            found.push(&rest[..length]);
        }
        rest = &rest[length..];
    }
    found
}

/// All bytes whose text is needed: the equations, and each of their relations as an equation of its own.
pub fn needed(postfix: &Postfix) -> BTreeSet<Vec<u8>> {
    let mut needed = BTreeSet::new();
    for equation in postfix.values().filter(|equation| equation.len() <= 2047) {
        needed.insert(equation.clone());
        needed.extend(relations(equation).into_iter().map(<[u8]>::to_vec));
    }
    needed
}

// ---- what is told

/// A question with the texts of its equation.
pub struct Question<'a> {
    pub postfix: Option<&'a Vec<u8>>,
    pub equations: &'a Equations,
}

impl Question<'_> {
    /// The equation as `equations` writes it; one that is wrong or refused as it stands in the line.
    fn equation(&self, asked: &Asked, answer: &[&str]) -> String {
        let text = self.postfix.and_then(|bytes| self.equations.get(bytes));
        match (asked, answer, text) {
            (_, ["refused", "4" | "11"] | ["matched" | "unmatched" | "beyond", ..], Some(text)) => {
                text.clone()
            }
            (Asked::Text(text), ..) => cut(&plain(text)),
            (Asked::Bytes(bytes), ..) => match bytes.len() {
                0 => "no bytes".to_string(),
                _ => format!("the bytes {}", cut(&to_hex(bytes))),
            },
        }
    }

    /// A relation by its number, from 1, and its text.
    fn relation(&self, number: &str) -> String {
        let found = relations(self.postfix.map_or(&[], Vec::as_slice));
        let place = number.parse::<usize>().unwrap_or(0).wrapping_sub(1);
        match found
            .get(place)
            .and_then(|bytes| self.equations.get(*bytes))
        {
            Some(text) => format!("relation {number}, {text}"),
            None => format!("relation {number}"),
        }
    }

    /// The relations that decided: one in the words, several in lines of their own.
    fn decided(&self, numbers: &[&str], truth: &str) -> (String, Vec<String>) {
        let relations: Vec<String> = numbers.iter().map(|one| self.relation(one)).collect();
        match &relations[..] {
            [one] => (format!("{one}, is {truth} of it"), Vec::new()),
            _ => {
                let words = format!("relations {} are {truth} of it", listed(numbers));
                (words, relations)
            }
        }
    }

    /// The answer in words, and lines of detail.
    fn answer(&self, file: u32, answer: &[&str]) -> (String, Vec<String>) {
        match answer {
            ["matched", numbers @ ..] => {
                let (words, lines) = self.decided(numbers, "true");
                (format!("file {file} is listed: {words}"), lines)
            }
            ["unmatched", numbers @ ..] => {
                let (words, lines) = self.decided(numbers, "false");
                (format!("file {file} is not listed: {words}"), lines)
            }
            ["beyond", older, numbers @ ..] => {
                let (words, lines) = self.decided(numbers, "true");
                let older = count(older.parse().unwrap_or(0), "older file");
                let most = SIZES.most;
                let words = format!("file {file} matched, and is not listed: {older} matched too, and MAXSEL is {most}; {words}");
                (words, lines)
            }
            _ => (refused(answer), Vec::new()),
        }
    }
}

/// An equation that is wrong, and a refusal in the words of the table.
fn refused(answer: &[&str]) -> String {
    match answer {
        ["wrong", place, reason] => {
            let words = equation_reason(reason);
            format!("the equation is wrong at place {place}: {words} (docs/EQUATIONS.md: {reason})")
        }
        ["refused", "bytes"] => "refused: the equation has more than 256 bytes".to_string(),
        ["refused", "33"] => format!("refused 33: {}", local_refusal(33)),
        ["refused", number] => {
            let words = refusal(number.parse().unwrap_or(0), 0, None);
            format!("refused {number}: {words}")
        }
        _ => answer.join(" "),
    }
}

/// 1 and 2; 1, 2 and 3
fn listed(numbers: &[&str]) -> String {
    match numbers {
        [] => "none".to_string(),
        [one] => one.to_string(),
        [front @ .., last] => format!("{} and {last}", front.join(", ")),
    }
}

fn cut(text: &str) -> String {
    match text.len() > SHOWN {
        true => format!("{}..", &text[..SHOWN]),
        false => text.to_string(),
    }
}

/// The rows of a question: what is asked, and the answer.
pub fn rows(step: &Step, question: &Question) -> Vec<Row> {
    let (file, asked) = match &step.command {
        Some(Command::Why(file, asked)) => (*file, asked),
        _ => return Vec::new(),
    };
    let printed = step.printed.first().map_or("", String::as_str);
    let answer: Vec<&str> = printed.split('\t').skip(2).collect();
    let equation = question.equation(asked, &answer);
    let words = format!("whether file {file} is listed by {equation}");
    let (told, details) = question.answer(file, &answer);
    let mut answered = row(None, ' ', "why", told);
    answered.details = details;
    vec![row(None, ' ', "asked", words), answered]
}
