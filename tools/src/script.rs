//! The lines of a script, read as `passday` reads them, and the questions of a class's script as `classday` does. That they are read alike is seen
//! at each use: the sheet that is played is compared with the one that the program prints.
use crate::lesson::hex;

/// The most bytes of a line.
pub const LINE_MOST: usize = 131_072;

/// The equation of a question.
#[derive(Clone, Debug, PartialEq, Eq)]
pub enum Asked {
    /// As on paper.
    Text(Vec<u8>),
    Bytes(Vec<u8>),
}

#[derive(Clone, Debug, PartialEq, Eq)]
pub enum Command {
    Time(u32),
    Open(u32),
    Drop(u32),
    Rx(u32, Vec<u8>),
    /// Why the file of a number is or is not in the list of an equation; the server does nothing.
    Why(u32, Asked),
}

impl Command {
    /// The line without its newline, or none if it can't be read.
    pub fn read(line: &[u8]) -> Option<Command> {
        if line.len() > LINE_MOST {
            return None;
        }
        if is_question(line) {
            return question(line);
        }
        let fields: Vec<&[u8]> = line.split(|&byte| byte == b'\t').collect();
        match fields[..] {
            [b"time", clock] => Some(Command::Time(number(clock)?)),
            [b"open", session] => Some(Command::Open(number(session)?)),
            [b"drop", session] => Some(Command::Drop(number(session)?)),
            [b"rx", session, digits] => Some(Command::Rx(number(session)?, small_hex(digits)?)),
            _ => None,
        }
    }
}

/// A line begins with a word that `classday` knows and `passday` does not.
pub fn is_question(line: &[u8]) -> bool {
    line.starts_with(b"why\t") || line.starts_with(b"why-bytes\t")
}

/// The equation as on paper is the rest of the line, tabs included.
fn question(line: &[u8]) -> Option<Command> {
    let fields: Vec<&[u8]> = line.splitn(3, |&byte| byte == b'\t').collect();
    match fields[..] {
        [b"why", file, text] => Some(Command::Why(number(file)?, Asked::Text(text.to_vec()))),
        [b"why-bytes", file, digits] => Some(Command::Why(
            number(file)?,
            Asked::Bytes(small_hex(digits)?),
        )),
        _ => None,
    }
}

fn number(field: &[u8]) -> Option<u32> {
    match field.iter().all(u8::is_ascii_digit) {
        true => std::str::from_utf8(field).ok()?.parse().ok(),
        false => None,
    }
}

/// Pairs of hex digits in small letters, without blanks.
fn small_hex(digits: &[u8]) -> Option<Vec<u8>> {
    let small = |byte: &u8| matches!(byte, b'0'..=b'9' | b'a'..=b'f');
    match digits.iter().all(small) {
        true => hex(digits, 1).ok(),
        false => None,
    }
}

/// The lines of a script; a last line without its newline counts.
pub fn lines(script: &[u8]) -> Vec<&[u8]> {
    let mut lines: Vec<&[u8]> = script.split(|&byte| byte == b'\n').collect();
    if lines.last().map_or(false, |last| last.is_empty()) {
        lines.pop();
    }
    lines
}
