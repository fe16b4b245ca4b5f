//! Writes random scripts with random damage to a folder: most have a line that
//! can't be read, some damage does no harm, and some scripts have none.

use std::io::{self, Write};
use std::process::ExitCode;

use reference::folder::{self, Texts};
use reference::generator;
use reference::random::Random;
use reference::script::LINE_MOST;

/// Bytes that stand in scripts, or come into them by mistake.
const BYTES: &[u8] = b"\t\t  \r\n\0\x01\x0b\x7f\x80\xa0\xc3\xefaAfFgGxX09-+.,#'";

const MARKS: [&[u8]; 3] = [b"\xef\xbb\xbf", b"\xff\xfe", b"\xfe\xff"];

const WORDS: [&[u8]; 11] = [
    b"", b"time", b"open", b"drop", b"rx", b"RX", b"Open", b"opens", b"tim", b"close", b"#",
];

const NUMBERS: [&[u8]; 11] = [
    b"",
    b"0",
    b"01",
    b"4294967295",
    b"4294967296",
    b"00004294967295",
    b"00004294967296",
    b"99999999999999999999999",
    b"-1",
    b"1.5",
    b"0x1",
];

type Fields = Vec<Vec<u8>>;

fn any_byte(random: &mut Random) -> u8 {
    if random.chance(3, 4) {
        *random.pick(BYTES)
    } else {
        random.byte()
    }
}

/// One byte of a line replaced, inserted or taken out.
fn damage_byte(line: &mut Vec<u8>, random: &mut Random) {
    let at = random.below(line.len() + 1);
    let byte = any_byte(random);
    match random.below(3) {
        0 if at < line.len() => line[at] = byte,
        1 if at < line.len() => {
            line.remove(at);
        }
        _ => line.insert(at, byte),
    }
}

/// An `rx` line about as long as the longest that can be read.
fn long_line(random: &mut Random) -> Vec<u8> {
    let mut line = b"rx\t1\t".to_vec();
    line.resize(random.between(LINE_MOST - 3, LINE_MOST + 3), b'0');
    line
}

/// The fields of a line changed as wholes.
fn damage_fields(line: &mut Vec<u8>, random: &mut Random) {
    let mut fields: Fields = line
        .split(|&byte| byte == b'\t')
        .map(<[u8]>::to_vec)
        .collect();
    match random.below(5) {
        0 => fields[0] = random.pick(&WORDS).to_vec(),
        1 if fields.len() > 1 => fields[1] = random.pick(&NUMBERS).to_vec(),
        2 => fields.push(random.pick(&NUMBERS).to_vec()),
        3 => fields.truncate(random.between(1, fields.len())),
        _ => {
            let digits = fields.last_mut().expect("a line has a field");
            if random.chance(1, 2) {
                digits.pop();
            } else {
                digits.make_ascii_uppercase();
            }
        }
    }
    *line = fields.join(&b'\t');
}

/// The line as another editor or a hasty pupil would have written it.
fn damage_line(line: &mut Vec<u8>, random: &mut Random) {
    match random.below(9) {
        0 | 1 => damage_byte(line, random),
        2 | 3 => damage_fields(line, random),
        4 => line.truncate(random.below(line.len() + 1)),
        5 => line.push(*random.pick(b"\r \t")),
        6 => {
            let tabs: Vec<usize> = (0..line.len()).filter(|&at| line[at] == b'\t').collect();
            if !tabs.is_empty() {
                line[*random.pick(&tabs)] = b' ';
            }
        }
        7 if random.chance(1, 10) => *line = long_line(random),
        7 => line.clear(),
        _ => {
            let mark = random.pick(&MARKS).to_vec();
            line.splice(0..0, mark);
        }
    }
}

/// The front of a random script, with up to three damages.
fn damaged(seed: u64) -> Vec<u8> {
    let text = generator::story(seed).text();
    let mut random = Random::new(!seed);
    let most = random.between(1, 40);
    let mut lines: Fields = text
        .split(|&byte| byte == b'\n')
        .take(most)
        .map(<[u8]>::to_vec)
        .collect();
    for _ in 0..random.below(4) {
        let at = random.below(lines.len());
        if random.chance(1, 12) && at + 1 < lines.len() {
            let next = lines.remove(at + 1);
            lines[at].extend(next);
        } else {
            damage_line(&mut lines[at], &mut random);
        }
    }
    let mut script = lines.join(&b'\n');
    if random.chance(3, 4) {
        script.push(b'\n');
    }
    script
}

struct Damaged;

impl Texts for Damaged {
    fn text(&mut self, seed: u64) -> Vec<u8> {
        damaged(seed)
    }

    fn print(&self, _: &mut dyn Write) -> io::Result<()> {
        Ok(())
    }
}

fn main() -> ExitCode {
    folder::run("damage", "script", &mut Damaged)
}
