//! The program `equations`: a line with a text is answered by its bytes, a
//! line with bytes by their text.

use std::io::{self, Write};

use super::{to_bytes, to_text, Refusal};
use crate::lines::{from_hex, run_whole, to_hex, Feed, Reader};

/// The program, which keeps nothing from line to line.
pub struct Equations;

impl Reader for Equations {
    fn read(&mut self, line: &[u8], output: &mut impl Write) -> io::Result<bool> {
        match answer(line) {
            Some(mut answer) => {
                answer.push(b'\n');
                output.write_all(&answer)?;
                Ok(true)
            }
            None => Ok(false),
        }
    }
}

/// The answer to a line, without its newline; none if the line can't be read.
pub fn answer(line: &[u8]) -> Option<Vec<u8>> {
    let told = if let Some(text) = line.strip_prefix(b"text\t") {
        to_bytes(text).map(|bytes| [b"bytes\t", to_hex(&bytes).as_bytes()].concat())
    } else {
        let bytes = from_hex(line.strip_prefix(b"bytes\t")?)?;
        to_text(&bytes).map(|text| [b"text\t", &text[..]].concat())
    };
    Some(told.unwrap_or_else(|refusal| refused(refusal).into_bytes()))
}

/// The fields that tell a refusal.
pub fn refused(refusal: Refusal) -> String {
    match refusal {
        Refusal::Wrong(place, reason) => format!("wrong\t{place}\t{}", reason.word()),
        Refusal::Number(number) => format!("refused\t{number}"),
        Refusal::Mark => "refused\tmark".to_string(),
        Refusal::Deeper => "refused\tdeeper".to_string(),
        Refusal::Bytes => "refused\tbytes".to_string(),
    }
}

/// What the program prints for a whole input.
pub fn run(input: &[u8]) -> Vec<u8> {
    run_whole(input, |_| Ok(Feed::new(Equations))).0
}
