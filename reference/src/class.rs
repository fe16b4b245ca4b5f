//! The program of a class day: the script program with more words. `why` and a
//! file number and an equation as on paper, or `why-bytes` and a file number
//! and an equation in hex digits, are answered by the relations that decided.

pub mod coverage;

use std::io::{self, Write};

use crate::lines::{from_hex, run_whole, Feed, Reader};
use crate::paper::program::refused;
use crate::paper::{to_bytes, Refusal};
use crate::script::{decimal, Driver, Unwatched, Watch};
use crate::why::{why, Verdict, Why};

/// An equation as a line gives it.
#[derive(Clone, Debug, PartialEq, Eq)]
pub enum Asked {
    /// As on paper: the rest of the line, tabs included.
    Text(Vec<u8>),
    Bytes(Vec<u8>),
}

/// A line that asks why a file is or is not listed.
#[derive(Clone, Debug, PartialEq, Eq)]
pub struct Question {
    pub number: u32,
    pub asked: Asked,
}

impl Question {
    /// The line without its newline, or none if it is no such line or can't
    /// be read.
    pub fn parse(line: &[u8]) -> Option<Question> {
        let mut fields = line.splitn(3, |&byte| byte == b'\t');
        let (word, number) = (fields.next()?, decimal(fields.next()?)?);
        let rest = fields.next()?;
        let asked = match word {
            b"why" => Asked::Text(rest.to_vec()),
            b"why-bytes" => Asked::Bytes(from_hex(rest)?),
            _ => return None,
        };
        Some(Question { number, asked })
    }

    /// The equation, or why there is none.
    pub fn equation(&self) -> Result<Vec<u8>, Refusal> {
        match &self.asked {
            Asked::Text(text) => to_bytes(text),
            Asked::Bytes(bytes) => Ok(bytes.clone()),
        }
    }
}

/// The fields behind the file number.
fn told(why: &Why) -> String {
    let mut fields = match why.verdict {
        Verdict::Matched => "matched".to_string(),
        Verdict::Unmatched => "unmatched".to_string(),
        Verdict::Beyond(older) => format!("beyond\t{older}"),
    };
    for relation in &why.reasons {
        fields += &format!("\t{relation}");
    }
    fields
}

/// The script program with the words of a class day.
pub struct Day<W> {
    pub driver: Driver<W>,
}

impl<W: Watch> Day<W> {
    /// The answer to a question, without its newline.
    pub fn answer(&self, question: &Question) -> String {
        let server = &self.driver.server;
        let number = question.number;
        let answer = question.equation().and_then(|equation| {
            why(&server.store, server.sizes.maxsel, &equation, number).map_err(Refusal::Number)
        });
        match answer {
            Ok(why) => format!("why\t{number}\t{}", told(&why)),
            Err(refusal) => format!("why\t{number}\t{}", refused(refusal)),
        }
    }
}

impl<W: Watch> Reader for Day<W> {
    fn read(&mut self, line: &[u8], output: &mut impl Write) -> io::Result<bool> {
        match Question::parse(line) {
            Some(question) => {
                writeln!(output, "{}", self.answer(&question))?;
                Ok(true)
            }
            None => self.driver.read(line, output),
        }
    }

    fn unreadable(&mut self, line: &[u8]) {
        self.driver.unreadable(line);
    }

    fn last(&mut self, output: &mut impl Write) -> io::Result<()> {
        self.driver.last(output)
    }
}

/// Prints the first line.
pub fn begin(output: &mut impl Write) -> io::Result<Feed<Day<Unwatched>>> {
    writeln!(output, "session\tpacket\tinformation")?;
    let driver = Driver::new(Unwatched);
    Ok(Feed::new(Day { driver }))
}

/// What the program prints for a whole script.
pub fn run(input: &[u8]) -> Vec<u8> {
    run_whole(input, begin).0
}
