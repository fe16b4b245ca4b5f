//! Equations as on paper: the borders, each reason, both ways, and the rules
//! of the first wrong place and of the fewest brackets by trying everything.

mod brackets;
mod grammar;
mod lines;
mod places;
mod texts;
mod trips;

use reference::paper::{to_bytes, to_text, Refusal};

use crate::common::to_hex;

/// What a text is answered with, as the program says it.
fn read(text: &str) -> String {
    told(to_bytes(text.as_bytes()).map(|bytes| to_hex(&bytes)))
}

/// What bytes are answered with.
fn write(bytes: &[u8]) -> String {
    told(to_text(bytes).map(|text| String::from_utf8(text).expect("plain text")))
}

fn told(answer: Result<String, Refusal>) -> String {
    match answer {
        Ok(result) => result,
        Err(Refusal::Wrong(place, reason)) => format!("wrong {place} {}", reason.word()),
        Err(Refusal::Number(number)) => format!("refused {number}"),
        Err(Refusal::Mark) => "refused mark".to_string(),
        Err(Refusal::Deeper) => "refused deeper".to_string(),
        Err(Refusal::Bytes) => "refused bytes".to_string(),
    }
}

/// So many brackets around a text.
fn nested(count: usize, text: &str) -> String {
    format!("{}{text}{}", "(".repeat(count), ")".repeat(count))
}
