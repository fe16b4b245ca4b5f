//! The marking desk (request A13): a pupil's answer sheet is marked line by
//! line, and the right sheet for a script is printed.
//!
//! A line of a sheet is "a script line's fields, then all that `passday` should
//! print for it, less the session", tab-parted.

pub mod coverage;

use std::io::{self, Write};

use crate::lines::{run_whole, Feed, Reader};
use crate::refusal::NOT_MARKED;
use crate::script::{Driver, Line, Unwatched};

type Field = Vec<u8>;

fn fields(bytes: &[u8]) -> impl Iterator<Item = Field> + '_ {
    bytes.split(|&byte| byte == b'\t').map(<[u8]>::to_vec)
}

/// A line of a sheet parted into the script's line and the pupil's answer
/// fields, or none if the script program can't read its part.
pub fn parted(line: &[u8]) -> Option<(Line, Vec<Field>)> {
    let mut script: Vec<Field> = fields(line).collect();
    // How many fields a script's line has is told by its first.
    let count = match script[0].as_slice() {
        b"time" | b"open" | b"drop" => 2,
        b"rx" => 3,
        _ => return None,
    };
    let answers = script.split_off(count.min(script.len()));
    let line = Line::parse(&script.join(&b'\t'))?;
    Some((line, answers))
}

/// The fields of all that the script program prints for a line, less the
/// session.
pub fn server_fields(driver: &mut Driver<Unwatched>, line: &Line) -> Vec<Field> {
    let mut printed = Vec::new();
    driver
        .run(line, &mut printed)
        .expect("writing to memory does not fail");
    let mut all = Vec::new();
    for line in printed.split_inclusive(|&byte| byte == b'\n') {
        let line = line.strip_suffix(b"\n").expect("whole lines");
        all.extend(fields(line).skip(1));
    }
    all
}

/// Writes a line of a word or a script's line and fields.
fn write_line(front: &[u8], fields: &[Field], output: &mut impl Write) -> io::Result<()> {
    output.write_all(front)?;
    for field in fields {
        output.write_all(b"\t")?;
        output.write_all(field)?;
    }
    output.write_all(b"\n")
}

/// The desk with the server that it asks.
pub struct Desk {
    driver: Driver<Unwatched>,
    /// How many lines were right.
    pub marks: usize,
}

impl Desk {
    fn new() -> Desk {
        Desk {
            driver: Driver::new(Unwatched),
            marks: 0,
        }
    }

    /// Whether a line is right, and the server's fields; none if the script
    /// program can't read its part.
    pub fn judge(&mut self, line: &[u8]) -> Option<(bool, Vec<Field>)> {
        let (line, answers) = parted(line)?;
        let server = server_fields(&mut self.driver, &line);
        let right = answers == server;
        self.marks += usize::from(right);
        Some((right, server))
    }
}

impl Reader for Desk {
    fn read(&mut self, line: &[u8], output: &mut impl Write) -> io::Result<bool> {
        match self.judge(line) {
            Some((right, server)) => {
                let word: &[u8] = if right { b"right" } else { b"wrong" };
                write_line(word, &server, output)?;
                Ok(true)
            }
            None => Ok(false),
        }
    }

    fn tell_unreadable(&mut self, number: usize, output: &mut impl Write) -> io::Result<()> {
        writeln!(output, "refused\t{NOT_MARKED}\t{number}")
    }

    fn last(&mut self, output: &mut impl Write) -> io::Result<()> {
        writeln!(output, "marks\t{}", self.marks)
    }
}

/// The writer of right sheets.
pub struct Sheet {
    driver: Driver<Unwatched>,
}

impl Reader for Sheet {
    fn read(&mut self, line: &[u8], output: &mut impl Write) -> io::Result<bool> {
        match Line::parse(line) {
            Some(read) => {
                let server = server_fields(&mut self.driver, &read);
                write_line(line, &server, output)?;
                Ok(true)
            }
            None => Ok(false),
        }
    }
}

/// A sheet to be marked, as it comes in.
pub fn desk() -> Feed<Desk> {
    Feed::new(Desk::new())
}

/// A script as it comes in, to be answered.
pub fn sheet() -> Feed<Sheet> {
    Feed::new(Sheet {
        driver: Driver::new(Unwatched),
    })
}

/// What the desk prints for a whole sheet.
pub fn run_desk(input: &[u8]) -> Vec<u8> {
    run_whole(input, |_| Ok(desk())).0
}

/// The right sheet for a whole script.
pub fn run_sheet(input: &[u8]) -> Vec<u8> {
    run_whole(input, |_| Ok(sheet())).0
}
