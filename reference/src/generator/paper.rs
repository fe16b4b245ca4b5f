//! Random lines for the program `equations`: texts of the grammar, some at
//! its borders or past them, texts damaged at each byte, equations as bytes,
//! and lines that can't be read.

use crate::generator::relation;
use crate::lines::{to_hex, LINE_MOST};
use crate::paper::names::{least_width, NAMES, OPERATORS};
use crate::paper::{DEEPEST, STRING_MOST};
use crate::random::Random;

/// Numbers at the borders of the widths.
const NUMBERS: [u32; 9] = [0, 1, 255, 256, 65_535, 65_536, 8000, u32::MAX - 1, u32::MAX];

/// Bytes that mean something in a text, or come into one by mistake.
const BYTES: &[u8] = b"  \t()##&&||<>==!::\"\"\\\\**??xX09258afAFgTtILEe_-'.,;\r\0\x1f\x7f\x80\xff";

/// What a class would type: a text of the grammar within all limits.
pub fn text(random: &mut Random) -> Vec<u8> {
    let size = random.between(1, 6);
    let mut text = part(random, size, 0);
    text.extend(gap(random));
    text
}

/// So many relations, joined and bracketed, under so many open brackets.
fn part(random: &mut Random, size: usize, open: usize) -> Vec<u8> {
    let mut text = gap(random);
    if open < DEEPEST && random.chance(1, 4) {
        text.push(b'(');
        text.extend(part(random, size, open + 1));
        text.extend(gap(random));
        text.push(b')');
    } else if size == 1 {
        text.extend(relation_text(random));
    } else {
        let left = random.between(1, size - 1);
        text.extend(part(random, left, open));
        text.extend(gap(random));
        text.extend(*random.pick(&[b"&&", b"||"]));
        text.extend(part(random, size - left, open));
    }
    text
}

fn gap(random: &mut Random) -> Vec<u8> {
    let gaps: [&[u8]; 6] = [b"", b"", b" ", b" ", b"\t", b" \t  "];
    random.pick(&gaps).to_vec()
}

fn relation_text(random: &mut Random) -> Vec<u8> {
    let mut text = item(random);
    text.extend(gap(random));
    let operator = *random.pick(&OPERATORS);
    text.extend(operator.as_bytes());
    text.extend(gap(random));
    if matches!(operator, "==" | "!=") && random.chance(2, 3) {
        let length = random.below(12);
        text.extend(string(random, length, 4));
    } else {
        text.extend(number(random));
    }
    text
}

fn item(random: &mut Random) -> Vec<u8> {
    let (name, id, _) = *random.pick(&NAMES);
    let mut text = match random.below(6) {
        0 => format!("#{id:04x}"),
        1 => format!("#{:04x}", random.word() as u16),
        _ => name.to_string(),
    }
    .into_bytes();
    for byte in &mut text {
        if random.chance(1, 3) {
            *byte ^= u8::from(byte.is_ascii_alphabetic()) << 5;
        }
    }
    text
}

fn number(random: &mut Random) -> Vec<u8> {
    let value = match random.below(3) {
        0 => *random.pick(&NUMBERS),
        1 => random.below(300) as u32,
        _ => random.word() as u32 >> random.below(32),
    };
    let zeros = "0".repeat(*random.pick(&[0, 0, 0, 0, 1, 12]));
    let mut text = format!("{zeros}{value}");
    if random.chance(1, 4) {
        let widths = [1, 2, 4];
        let fitting = &widths[least_width(value) / 2..];
        text += &format!(":{}", random.pick(fitting));
    }
    text.into_bytes()
}

/// A string of so many bytes with at most so many stars.
fn string(random: &mut Random, length: usize, stars: usize) -> Vec<u8> {
    let mut left = random.below(stars + 1);
    let mut text = vec![b'"'];
    for _ in 0..length {
        let mut byte = match random.below(4) {
            0 => random.byte(),
            1 => *random.pick(b"*?\"\\"),
            _ => *random.pick(b"rover ABC-09~"),
        };
        if byte == b'*' {
            match left {
                0 => byte = b'?',
                _ => left -= 1,
            }
        }
        text.extend(character(random, byte));
    }
    text.push(b'"');
    text
}

/// A byte of a string, in one of the ways to write it.
fn character(random: &mut Random, byte: u8) -> Vec<u8> {
    let plain = (b' '..=b'~').contains(&byte) && byte != b'"' && byte != b'\\';
    match byte {
        _ if random.chance(1, 8) => format!("\\x{byte:02X}").into_bytes(),
        b'"' | b'\\' => vec![b'\\', byte],
        _ if plain => vec![byte],
        _ => format!("\\x{byte:02x}").into_bytes(),
    }
}

/// A text at a border, on either side of it.
pub fn border(random: &mut Random) -> Vec<u8> {
    match random.below(7) {
        0 => nested(random),
        1 => {
            let length = random.between(STRING_MOST - 1, STRING_MOST + 1);
            long_string(random, length)
        }
        2 => {
            let length = random.between(250, 254);
            long_string(random, length)
        }
        3 => {
            let value = u64::from(*random.pick(&NUMBERS)) + random.below(2) as u64;
            let width = random.pick(&["", ":1", ":2", ":4", ":3", ":"]);
            format!("PRIORITY < {value}{width}").into_bytes()
        }
        4 => {
            let stars = random.between(3, 6);
            let star = *random.pick(&["*", "\\x2a", "\\x2A", "a*"]);
            format!("TITLE == \"{}*\"", star.repeat(stars - 1)).into_bytes()
        }
        5 => {
            let operator = random.pick(&OPERATORS);
            format!("TITLE {operator} \"m\"").into_bytes()
        }
        _ => {
            // Many short relations: about 256 bytes.
            let count = random.between(50, 52);
            let relations: Vec<Vec<u8>> = (0..count).map(|_| b"TITLE == \"\"".to_vec()).collect();
            relations.join(&b" && "[..])
        }
    }
}

/// Brackets to about the deepest, around a relation or spread over many.
fn nested(random: &mut Random) -> Vec<u8> {
    let count = random.between(DEEPEST - 1, DEEPEST + 1);
    let mut text = Vec::new();
    for _ in 0..count {
        if random.chance(1, 3) {
            text.extend(b"PRIORITY > 1 ");
            text.extend(*random.pick(&[b"&&", b"||"]));
        }
        text.push(b'(');
    }
    text.extend(b"TITLE == \"\"");
    let closed = count - usize::from(random.chance(1, 5));
    text.extend(vec![b')'; closed]);
    if random.chance(1, 5) {
        text.push(b')');
    }
    text
}

/// A relation whose string has so many bytes, perhaps with a star as the last.
fn long_string(random: &mut Random, length: usize) -> Vec<u8> {
    let mut text = b"TITLE == \"".to_vec();
    text.extend(vec![b'*'; random.below(5)]);
    let stars = text.len() - 10;
    for _ in stars..length - 1 {
        text.extend(*random.pick(&[&b"a"[..], b"?", b"\\\"", b"\\x00"]));
    }
    let lasts: [&[u8]; 7] = [b"a", b"*", b"\\x2a", b"\\\\", b"\\q", b"\x01", b"\t"];
    text.extend(*random.pick(&lasts));
    text.push(b'"');
    text
}

/// A text about as long as a line that can be read: many relations, blanks,
/// zeros before a number, or a string.
fn huge(random: &mut Random) -> Vec<u8> {
    let most = LINE_MOST - b"text\t".len();
    let mut text: Vec<u8> = match random.below(4) {
        0 => b"TITLE==".to_vec(),
        1 => b"TITLE==\"".to_vec(),
        _ => Vec::new(),
    };
    let filling = match (text.len(), random.below(3)) {
        (0, 0) => b" ".to_vec(),
        (0, _) => [relation_text(random), random.pick(&[b"&&", b"||"]).to_vec()].concat(),
        _ => b"0".to_vec(),
    };
    while text.len() + filling.len() + 8 <= most {
        text.extend(&filling);
    }
    text.extend(b"TITLE==5");
    text
}

/// The text damaged at each of its bytes: cut off before it, the byte taken
/// out, another in its place, another before it.
pub fn damaged_at_each_byte(random: &mut Random, text: &[u8]) -> Vec<Vec<u8>> {
    let mut damaged = Vec::new();
    for at in 0..text.len() {
        damaged.push(text[..at].to_vec());
        damaged.push([&text[..at], &text[at + 1..]].concat());
        damaged.push([&text[..at], &[other_byte(random)], &text[at + 1..]].concat());
        damaged.push([&text[..at], &[other_byte(random)], &text[at..]].concat());
    }
    damaged
}

/// A byte that may stand in a line.
fn other_byte(random: &mut Random) -> u8 {
    let byte = match random.chance(4, 5) {
        true => *random.pick(BYTES),
        false => random.byte(),
    };
    match byte {
        b'\n' => b' ',
        _ => byte,
    }
}

/// An accepted equation as bytes, without an end mark.
pub fn equation_bytes(random: &mut Random) -> Vec<u8> {
    let count = match random.below(8) {
        0 => random.between(40, 52),
        1 => random.between(90, 130),
        _ => random.between(1, 9),
    };
    let mut bytes = Vec::new();
    let mut results = 0;
    // The stack holds 100 results.
    let most = *random.pick(&[2, 3, 30, 100]);
    for _ in 0..count {
        bytes.extend(relation_bytes(random, count > 9));
        results += 1;
        while results > 1 && (results >= most || random.chance(1, 3)) {
            bytes.push(random.between(1, 2) as u8);
            results -= 1;
        }
    }
    for _ in 1..results {
        bytes.push(random.between(1, 2) as u8);
    }
    bytes
}

fn relation_bytes(random: &mut Random, short: bool) -> Vec<u8> {
    let id = match random.below(3) {
        0 => random.word() as u16,
        _ => random.pick(&NAMES).1,
    };
    if short && random.chance(4, 5) {
        return relation(0x83, id, b"");
    }
    if random.chance(1, 2) {
        let value = match random.below(2) {
            0 => *random.pick(&NUMBERS),
            _ => random.word() as u32,
        };
        let width = *random.pick(&[1, 2, 4]);
        let code = 0x80 + 16 * random.below(6) as u8;
        return relation(code, id, &value.to_le_bytes()[..width]);
    }
    let length = random.below(if short { 3 } else { 20 });
    let mut constant = random.bytes(length);
    for byte in &mut constant {
        if random.chance(2, 3) {
            *byte = *random.pick(b"*?\"\\ ~rover");
        }
    }
    while constant.iter().filter(|&&byte| byte == b'*').count() > 4 {
        constant.pop();
    }
    relation(*random.pick(&[0x83, 0xb3]), id, &constant)
}

/// One connective above the other: its text is nested about as deep as may be.
fn deep_bytes(random: &mut Random) -> Vec<u8> {
    let count = random.between(DEEPEST, DEEPEST + 4);
    let mut bytes = Vec::new();
    for _ in 0..count {
        bytes.extend(relation(0xb3, random.pick(&NAMES).1, b""));
    }
    let other = random.chance(1, 2);
    for _ in 1..count {
        bytes.push(1 + u8::from(other && random.chance(1, 8)));
    }
    bytes
}

/// Bytes for a line: accepted ones, with an end mark, at the borders of the
/// lengths, or damaged.
fn some_bytes(random: &mut Random) -> Vec<u8> {
    let mut bytes = match random.below(6) {
        0 => deep_bytes(random),
        1 => {
            // About 256 bytes.
            let length = random.between(251, 255);
            relation(0x83, 0x22, &vec![b'a'; length])
        }
        2 if random.chance(1, 3) => {
            // About 2,047 bytes, which are 8 times 256 less one.
            let mut bytes = relation(0x83, 0x22, &[7; 251]);
            for _ in 0..7 {
                bytes.extend(relation(0x83, 0x22, &[b'a'; 251]));
                bytes.push(2);
            }
            bytes.extend(vec![0; random.below(4)]);
            bytes
        }
        _ => equation_bytes(random),
    };
    match random.below(8) {
        0 => bytes.push(0),
        1 => {
            let at = random.below(bytes.len());
            bytes[at] = random.byte();
        }
        2 => bytes.truncate(random.below(bytes.len())),
        3 => bytes.push(random.below(4) as u8),
        4 if random.chance(1, 4) => {
            let length = random.below(30);
            bytes = random.bytes(length);
        }
        _ => {}
    }
    bytes
}

/// What the lines are about.
#[derive(Clone, Copy, Debug, PartialEq, Eq)]
pub enum Lines {
    /// All that a program may meet, but for lines that can't be read.
    Mixed,
    /// Texts that are turned into bytes.
    Text,
    /// Bytes that are written as text.
    Bytes,
}

impl Lines {
    pub fn of(word: &str) -> Option<Lines> {
        match word {
            "mixed" => Some(Lines::Mixed),
            "text" => Some(Lines::Text),
            "bytes" => Some(Lines::Bytes),
            _ => None,
        }
    }
}

/// The next lines, at least one.
pub fn lines(random: &mut Random, kind: Lines) -> Vec<Vec<u8>> {
    let texts = match kind {
        Lines::Text => vec![text(random)],
        Lines::Bytes => return vec![bytes_line(&equation_bytes(random))],
        Lines::Mixed => match random.below(200) {
            0 => {
                let text = text(random);
                damaged_at_each_byte(random, &text)
            }
            1 => {
                let text = nested(random);
                damaged_at_each_byte(random, &text)
            }
            2 if random.chance(1, 6) => vec![huge(random)],
            2..=59 => vec![border(random)],
            60..=109 => vec![text(random)],
            110..=119 => {
                let length = random.below(12);
                vec![(0..length).map(|_| other_byte(random)).collect()]
            }
            _ => return vec![bytes_line(&some_bytes(random))],
        },
    };
    texts.iter().map(|text| text_line(text)).collect()
}

fn text_line(text: &[u8]) -> Vec<u8> {
    [b"text\t", text].concat()
}

fn bytes_line(bytes: &[u8]) -> Vec<u8> {
    [b"bytes\t", to_hex(bytes).as_bytes()].concat()
}

/// Lines that can't be read.
const ODD_LINES: [&str; 12] = [
    "",
    "text",
    "bytes",
    "texts\t",
    "Text\t",
    "TEXT\t",
    " text\t",
    "bytes ",
    "error\t1",
    "rx\t1\t00",
    "text TITLE == 5",
    "byte\t00",
];

/// Fields behind `bytes`, most of which can't be read.
const ODD_FIELDS: [&str; 9] = [
    "",
    "0",
    "83220000",
    "8322000",
    "83\t22",
    "8322000G",
    "832200FF",
    "83220000 ",
    "83220000\r",
];

/// A line that can't be read, or nearly so.
pub fn odd_line(random: &mut Random) -> Vec<u8> {
    match random.below(4) {
        0 => random.pick(&ODD_LINES).as_bytes().to_vec(),
        1 => format!("bytes\t{}", random.pick(&ODD_FIELDS)).into_bytes(),
        2 => {
            let fronts = ["text\tTITLE == \"", "bytes\t00", "text\t"];
            let mut line = random.pick(&fronts).as_bytes().to_vec();
            line.resize(random.between(LINE_MOST - 1, LINE_MOST + 1), b'0');
            line
        }
        _ => {
            let mut line = lines(random, Lines::Mixed).remove(0);
            let at = random.below(5);
            line[at] = other_byte(random);
            line
        }
    }
}
