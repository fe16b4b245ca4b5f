//! Random answer sheets: right sheets for random scripts, with fields changed,
//! left out or added, lines that can't be read, and lines about as long as the
//! desk's buffer or longer.

use super::{story, Story};
use crate::desk::{parted, run_sheet};
use crate::lines::LINE_MOST;
use crate::random::Random;

type Line = Vec<u8>;

/// Bytes that stand in sheets, or come into them by mistake.
const BYTES: &[u8] = b"0123456789abcdefABF \r\0\x7f\x80\xff_RESPulx-";

/// Fields that a pupil may write by mistake.
const FIELDS: [&str; 14] = [
    "",
    "0",
    "1",
    "closed",
    "refused",
    "34",
    "37",
    "LOGIN_RESP",
    "UL_ACK_RESP",
    "DATA",
    "DATA_END",
    "right",
    "wrong",
    "blocks",
];

/// A script of that seed to be answered.
pub fn sheet_script(seed: u64) -> Story {
    let mut random = Random::new(!seed.rotate_left(32));
    let mut story = story(seed);
    if random.chance(1, 8) {
        add_long_line(&mut random, &mut story.lines);
    }
    story
}

/// A sheet of that seed. Its text is what the desk reads.
pub fn answer_sheet(seed: u64) -> Story {
    let mut random = Random::new(seed.rotate_left(32));
    let mut story = sheet_script(seed);
    let right = run_sheet(&story.text());
    let right = right.strip_suffix(b"\n").unwrap_or(&right);
    let mut lines: Vec<Line> = Vec::new();
    // Of 20 lines, so many are changed.
    let often = *random.pick(&[0, 1, 4, 10, 20]);
    for line in right.split(|&byte| byte == b'\n') {
        let mut line = line.to_vec();
        if random.chance(often, 20) {
            change(&mut random, &mut line);
        }
        lines.push(line);
    }
    if random.chance(1, 4) {
        let from_end = random.below(lines.len().min(6) + 1);
        let line = odd_line(&mut random, &lines);
        lines.insert(lines.len() - from_end, line);
    }
    story.lines = lines;
    story
}

/// Adds a line to a script whose line in the sheet is about as long as the
/// buffer: harmless packets on session 1, whether it is open or not.
fn add_long_line(random: &mut Random, lines: &mut Vec<Line>) {
    // The answer of a session that is closed, or no answer at all.
    let answer = *random.pick(&[0, b"\trefused\t34".len()]);
    let mut line = b"rx\t1\t".to_vec();
    while line.len() + answer + 4 <= LINE_MOST {
        line.extend(b"000d");
    }
    line.truncate(line.len() - random.below(3) * 4);
    let at = random.below(lines.len().min(4) + 1);
    lines.insert(at, line);
}

/// Where the answer fields of a line begin; at its end where there is none.
fn answers_at(line: &[u8]) -> Option<usize> {
    let (_, answers) = parted(line)?;
    let length: usize = answers.iter().map(|field| field.len() + 1).sum();
    Some(line.len() - length)
}

/// Changes a line as a pupil would get it wrong. Some changes do no harm.
fn change(random: &mut Random, line: &mut Line) {
    let at = match answers_at(line) {
        Some(at) => at,
        None => return,
    };
    let answers = line.split_off(at);
    let mut fields: Vec<Line> = answers
        .split(|&byte| byte == b'\t')
        .skip(1)
        .map(<[u8]>::to_vec)
        .collect();
    change_fields(random, &mut fields);
    for field in fields {
        line.push(b'\t');
        line.extend(field);
    }
}

fn change_fields(random: &mut Random, fields: &mut Vec<Line>) {
    let count = fields.len();
    match random.below(12) {
        0 => fields.clear(),
        1 if count > 0 => {
            fields.remove(random.below(count));
        }
        2 if count > 0 => fields.truncate(random.below(count)),
        3 if count > 1 => fields.swap(random.below(count), random.below(count)),
        4 => fields.push(Vec::new()),
        5 => fields.insert(0, b"1".to_vec()),
        6 => {
            let field = random.pick(&FIELDS).as_bytes().to_vec();
            fields.insert(random.below(count + 1), field);
        }
        7 if random.chance(1, 10) => fields.push(vec![b'0'; random.between(1, 60_000)]),
        8 if count > 0 => {
            let field = random.pick(&FIELDS).as_bytes().to_vec();
            fields[random.below(count)] = field;
        }
        _ if count > 0 => {
            let field = &mut fields[random.below(count)];
            change_field(random, field);
        }
        _ => fields.push(random.pick(&FIELDS).as_bytes().to_vec()),
    }
}

/// Changes some byte of a field, or its length.
fn change_field(random: &mut Random, field: &mut Line) {
    let at = random.below(field.len() + 1);
    let byte = *random.pick(BYTES);
    match random.below(6) {
        0 if at < field.len() => {
            field.remove(at);
        }
        1 => field.insert(at, byte),
        2 => field.push(*random.pick(b" \r0")),
        3 => field.make_ascii_uppercase(),
        4 => field.truncate(at),
        _ if at < field.len() => field[at] = byte,
        _ => field.push(byte),
    }
}

/// Lines whose script fields can't be read, some of them nearly readable.
const ODD: [&str; 26] = [
    "",
    "\t",
    "time",
    "time\t",
    "time\tx\t",
    "time\t4294967296",
    "time\t\t5",
    "TIME\t5",
    " time\t5",
    "time 5\tLOGIN_RESP",
    "open",
    "open\t\tLOGIN_RESP\t0000000004",
    "open\tone\tLOGIN_RESP\t0000000004",
    "open LOGIN_RESP\t1",
    "drop",
    "drop\t",
    "rx",
    "rx\t1",
    "rx\t\t00",
    "rx\t1\t0\tclosed",
    "rx\t1\t0A\tclosed",
    "rx\t1\tclosed",
    "why\t1\tTITLE == 5",
    "session\tpacket\tinformation",
    "error\t1",
    "marks\t3",
];

/// A line that can't be read, or one about as long as the buffer.
fn odd_line(random: &mut Random, lines: &[Line]) -> Line {
    let mut line = match random.below(6) {
        0 | 1 => return random.pick(&ODD).as_bytes().to_vec(),
        2 => b"time\t7".to_vec(),
        3 => b"rx\t1\t".to_vec(),
        _ => random.pick(lines).clone(),
    };
    if random.chance(1, 2) {
        // A byte of it changed, of the script's fields most often.
        let at = random.below(line.len().min(6) + 1);
        let byte = *random.pick(b"\t 0a9xR\r");
        match line.get_mut(at) {
            Some(other) => *other = byte,
            None => line.push(byte),
        }
        return line;
    }
    line.truncate(LINE_MOST - 1);
    line.push(*random.pick(b"\t0a"));
    let least = line.len().max(LINE_MOST - 1);
    line.resize(random.between(least, LINE_MOST + 2), b'0');
    line
}
