//! Random scripts of a class day: random scripts of the script program, with
//! questions in between why a file is or is not listed.

use super::{equations, paper, story, Story};
use crate::class::{Asked, Question};
use crate::lines::{to_hex, LINE_MOST};
use crate::paper::{to_text, Refusal};
use crate::random::Random;
use crate::script::{Driver, Line, Unwatched};
use crate::server::Server;
use std::io;

/// A script of that seed.
pub fn class_story(seed: u64) -> Story {
    let mut random = Random::new(!seed);
    let mut story = story(seed);
    let mut driver = Driver::new(Unwatched);
    let mut lines = Vec::new();
    // Of 12 lines, so many are followed by questions.
    let often = random.between(1, 8);
    for line in story.lines {
        let read = Line::parse(&line);
        lines.push(line);
        match read {
            Some(read) => driver
                .run(&read, &mut io::sink())
                .expect("nothing is written"),
            // What follows is not read.
            None => continue,
        }
        // Without complete files there is little to ask.
        let places = &driver.server.store.places;
        let any = places.iter().flatten().any(|file| file.is_complete());
        if random.chance(often, if any { 12 } else { 60 }) {
            for _ in 0..random.between(1, 3) {
                lines.push(question(&mut random, &driver.server));
            }
        }
    }
    if random.chance(1, 8) {
        let at = lines.len() - random.below(lines.len().min(4) + 1);
        lines.insert(at, unreadable(&mut random));
    }
    story.lines = lines;
    story
}

/// A question to the server as it is.
fn question(random: &mut Random, server: &Server) -> Vec<u8> {
    let question = Question {
        number: file_number(random, server),
        asked: asked(random, &complete_files(server)),
    };
    let zeros = "0".repeat(*random.pick(&[0, 0, 0, 0, 0, 0, 0, 0, 1, 9]));
    let number = question.number;
    match question.asked {
        Asked::Text(text) => [format!("why\t{zeros}{number}\t").as_bytes(), &text].concat(),
        Asked::Bytes(bytes) => {
            format!("why-bytes\t{zeros}{number}\t{}", to_hex(&bytes)).into_bytes()
        }
    }
}

fn complete_files(server: &Server) -> Vec<Vec<u8>> {
    let mut files = Vec::new();
    for (place, file) in server.store.places.iter().enumerate() {
        if matches!(file, Some(file) if file.is_complete()) {
            files.push(server.store.contents(place));
        }
    }
    files
}

/// The number of a file, mostly of a complete one.
fn file_number(random: &mut Random, server: &Server) -> u32 {
    let files = server.store.places.iter().flatten();
    let (complete, partial): (Vec<_>, Vec<_>) = files.partition(|file| file.is_complete());
    let among = match random.below(10) {
        0 if !partial.is_empty() => &partial,
        1 => return *random.pick(&[0, 1, 2, 33, u32::MAX]),
        _ if !complete.is_empty() => &complete,
        _ if !partial.is_empty() => &partial,
        _ => return random.below(3) as u32,
    };
    random.pick(among).number
}

/// An equation to be asked of these files, as on paper or as bytes.
fn asked(random: &mut Random, files: &[Vec<u8>]) -> Asked {
    match random.below(12) {
        0..=3 => Asked::Bytes(equations::equation(random, files)),
        4..=7 => written(random, files),
        8 => {
            let most = *random.pick(&[500, 2047]);
            Asked::Bytes(equations::tree_of(random, files, 120, most))
        }
        9 if random.chance(1, 4) => at_the_border(random),
        9 | 10 => Asked::Text(paper::text(random)),
        _ => Asked::Text(odd_text(random, files)),
    }
}

/// An equation on the files' items as a person would type it.
fn written(random: &mut Random, files: &[Vec<u8>]) -> Asked {
    let relations = random.between(1, 12);
    let mut bytes = equations::tree_of(random, files, relations, 256);
    if to_text(&bytes) == Err(Refusal::Mark) {
        bytes.pop();
    }
    match to_text(&bytes) {
        Ok(text) => Asked::Text(text),
        // Nested too deep, or with too many stars.
        Err(_) => Asked::Bytes(bytes),
    }
}

/// Bytes about as long as the evaluator takes: nothing but refusals, or one
/// wide OR.
fn at_the_border(random: &mut Random) -> Asked {
    let length = random.between(2045, 2050);
    if random.chance(1, 2) {
        return Asked::Bytes(vec![0x83; length]);
    }
    let mut bytes = equations::relation(0xb3, 0x02, b"");
    let text = |length: usize| equations::relation(0x83, 0x12, &vec![b'?'; length]);
    for _ in 0..7 {
        bytes.extend(text(250));
        bytes.push(2);
    }
    let rest = length - bytes.len() - 5;
    bytes.extend(text(rest.min(255)));
    bytes.push(2);
    bytes.resize(length, 0);
    Asked::Bytes(bytes)
}

/// A text with a fault, or one whose bytes are too many.
fn odd_text(random: &mut Random, files: &[Vec<u8>]) -> Vec<u8> {
    if random.chance(1, 3) {
        return paper::border(random);
    }
    let text = match written(random, files) {
        Asked::Text(text) => text,
        Asked::Bytes(_) => paper::text(random),
    };
    if text.is_empty() || text.len() > 400 {
        return text;
    }
    let damaged = paper::damaged_at_each_byte(random, &text);
    random.pick(&damaged).clone()
}

/// Questions that can't be read.
const UNREADABLE: [&str; 18] = [
    "why",
    "why\t",
    "why\t1",
    "why\t\tTITLE == 5",
    "why\tone\tTITLE == 5",
    "why\t-1\tTITLE == 5",
    "why\t4294967296\tTITLE == 5",
    "why 1\tTITLE == 5",
    "WHY\t1\tTITLE == 5",
    "why-text\t1\tTITLE == 5",
    "why-bytes",
    "why-bytes\t1",
    "why-bytes\t1\t0",
    "why-bytes\t1\t8322000A",
    "why-bytes\t1\t83220000\t",
    "why-bytes\t\t83220000",
    "why-bytes\t1 \t83220000",
    "why\t1 \tTITLE == 5",
];

fn unreadable(random: &mut Random) -> Vec<u8> {
    if random.chance(1, 12) {
        let mut line = random
            .pick(&["why\t1\t", "why-bytes\t1\t"])
            .as_bytes()
            .to_vec();
        // The first two lengths can be read.
        line.resize(LINE_MOST - 1 + random.below(3), b'0');
        return line;
    }
    random.pick(&UNREADABLE).as_bytes().to_vec()
}
