//! Random equations: some that the files at hand meet, some that are refused.

use crate::equation::{is_number, Equation};
use crate::header::{self, Item};
use crate::packet::number;
use crate::random::Random;

/// The most bytes of an equation in a packet that the server accepts.
const MOST: usize = 256;

/// An equation for SELECT_CMD, to be asked of these files.
pub fn equation(random: &mut Random, files: &[Vec<u8>]) -> Vec<u8> {
    match random.below(12) {
        0..=2 => above(random, files),
        3..=6 => tree(random, files),
        7 if random.chance(1, 3) => full(random, files),
        7 => deep(random),
        8 | 9 => of_one_id(random, files),
        _ => damaged(random, files),
    }
}

/// The bytes of a relation.
pub fn relation(code: u8, id: u16, constant: &[u8]) -> Vec<u8> {
    let mut bytes = vec![code];
    bytes.extend(id.to_le_bytes());
    bytes.push(constant.len() as u8);
    bytes.extend(constant);
    bytes
}

/// Files above some file's upload time, as a client pages.
fn above(random: &mut Random, files: &[Vec<u8>]) -> Vec<u8> {
    let time = match files {
        [] => 0,
        _ if random.chance(1, 3) => 0,
        _ => {
            let file: &Vec<u8> = random.pick(files);
            number(header::first(file, header::UPLOAD_TIME).unwrap_or(&[]))
        }
    };
    let code = *random.pick(&[0x90, 0x90, 0xa0, 0xc0, 0xd0]);
    let mut bytes = relation(code, header::UPLOAD_TIME, &time.to_le_bytes());
    if random.chance(1, 3) {
        let mut first = leaf(random, files);
        if first.len() + 9 <= MOST {
            first.extend(bytes);
            first.push(1);
            bytes = first;
        }
    }
    bytes
}

/// The file's items whose id stands in its header more than once.
fn repeated(file: &[u8]) -> Vec<Item> {
    let items = header::items(file);
    let is_repeated = |item: &&Item| header::each(file, item.id).len() > 1;
    items.iter().filter(is_repeated).copied().collect()
}

/// Two relations on items of one id of a file that has several: equal to A and
/// equal to B, equal to A and not equal to A, and so on.
fn of_one_id(random: &mut Random, files: &[Vec<u8>]) -> Vec<u8> {
    let fitting: Vec<&Vec<u8>> = files
        .iter()
        .filter(|file| !repeated(file).is_empty())
        .collect();
    if fitting.is_empty() {
        return tree(random, files);
    }
    let file = *random.pick(&fitting);
    let id = random.pick(&repeated(file)).id;
    let items = header::each(file, id);
    let one = *random.pick(&items);
    let other = if random.chance(1, 3) {
        one
    } else {
        *random.pick(&items)
    };
    let mut bytes = equal_or_not(random, id, one);
    bytes.extend(equal_or_not(random, id, other));
    bytes.push(*random.pick(&[1, 1, 2]));
    bytes
}

/// "Equal" or "not equal" to these data, as a number where they are one or as
/// text; two such relations fit into a packet.
fn equal_or_not(random: &mut Random, id: u16, data: &[u8]) -> Vec<u8> {
    let kind = match random.below(2) {
        0 if is_number(data) => 0,
        _ => 3,
    };
    let code = *random.pick(&[0x80, 0xb0]) | kind;
    relation(code, id, &data[..data.len().min(100)])
}

/// A relation on an item, mostly one that some file has.
fn leaf(random: &mut Random, files: &[Vec<u8>]) -> Vec<u8> {
    let (id, data) = some_item(random, files);
    if random.chance(1, 2) {
        number_relation(random, id, &data)
    } else {
        text_relation(random, id, &data)
    }
}

fn some_item(random: &mut Random, files: &[Vec<u8>]) -> (u16, Vec<u8>) {
    let ids = [0, 0x02, 0x04, 0x0c, 0x12, 0x14, 0x18, 0x22, 0x0101, 0x1400];
    if !files.is_empty() && random.chance(5, 6) {
        let file = random.pick(files);
        let mut items = header::items(file);
        let repeated = repeated(file);
        if !repeated.is_empty() && random.chance(1, 2) {
            items = repeated;
        }
        if !items.is_empty() {
            let item = random.pick(&items);
            return (item.id, item.data(file).to_vec());
        }
    }
    let length = random.below(5);
    (*random.pick(&ids), random.bytes(length))
}

fn number_relation(random: &mut Random, id: u16, data: &[u8]) -> Vec<u8> {
    let value = match data.len() {
        1 | 2 | 4 => number(data),
        _ => random.below(300) as u32,
    };
    let value = match random.below(4) {
        0 => value.wrapping_add(1),
        1 => value.wrapping_sub(1),
        _ => value,
    };
    let fitting: &[usize] = match value {
        0..=0xff => &[1, 2, 4],
        0x100..=0xffff => &[2, 4],
        _ => &[4],
    };
    let width = *random.pick(fitting);
    let code = 0x80 | (random.below(6) as u8) << 4;
    relation(code, id, &value.to_le_bytes()[..width])
}

fn text_relation(random: &mut Random, id: u16, data: &[u8]) -> Vec<u8> {
    let mut text = data.to_vec();
    text.truncate(*random.pick(&[60, 240]));
    if random.chance(1, 6) {
        // As many stars as are allowed.
        for _ in 0..4 {
            let at = random.below(text.len() + 1);
            text.insert(at, b'*');
        }
        text.retain(|&byte| byte != b'*' || !data.contains(&byte));
        return relation(*random.pick(&[0x83, 0xb3]), id, &text);
    }
    for _ in 0..random.below(4) {
        let at = random.below(text.len() + 1);
        match random.below(4) {
            0 => text.insert(at, b'*'),
            1 => {
                let end = random.between(at, text.len());
                text.splice(at..end, *b"*");
            }
            _ if at == text.len() => {}
            2 => text[at] = b'?',
            _ => text[at] ^= 0x20,
        }
    }
    let code = *random.pick(&[0x83, 0x83, 0xb3]);
    relation(code, id, &text)
}

/// Several relations, joined.
fn tree(random: &mut Random, files: &[Vec<u8>]) -> Vec<u8> {
    let relations = random.between(1, 9);
    tree_of(random, files, relations, MOST)
}

/// So many relations, joined, or as many as there is room for in so many bytes.
pub fn tree_of(random: &mut Random, files: &[Vec<u8>], relations: usize, most: usize) -> Vec<u8> {
    let mut bytes = Vec::new();
    let mut results = 0;
    for _ in 0..relations {
        let next = leaf(random, files);
        // Room must stay for the connectives and the mark.
        if bytes.len() + next.len() + results + 1 > most {
            break;
        }
        bytes.extend(next);
        results += 1;
        while results > 1 && random.chance(1, 2) {
            bytes.push(connective(random));
            results -= 1;
        }
    }
    while results > 1 {
        bytes.push(connective(random));
        results -= 1;
    }
    if random.chance(1, 2) {
        bytes.push(0);
    }
    bytes
}

fn connective(random: &mut Random) -> u8 {
    *random.pick(&[1, 2])
}

/// As many short relations as a packet holds, one above the other.
fn deep(random: &mut Random) -> Vec<u8> {
    let count = random.between(40, 51);
    let mut bytes = Vec::new();
    for _ in 0..count {
        let code = *random.pick(&[0x83, 0xb3]);
        bytes.extend(relation(code, *random.pick(&[0x22, 0x02]), b""));
    }
    for _ in 1..count {
        bytes.push(connective(random));
    }
    bytes
}

/// An equation of as many bytes as a packet holds, or nearly so.
fn full(random: &mut Random, files: &[Vec<u8>]) -> Vec<u8> {
    let mut bytes = leaf(random, files);
    bytes.truncate(120);
    if Equation::parse(&bytes).is_err() {
        bytes = relation(0x83, 0x22, b"*");
    }
    // A relation and a connective fill the rest; one byte more or less is for
    // the mark.
    let constant = MOST - bytes.len() - 5 - random.below(2);
    bytes.extend(relation(0xb3, 0x02, &vec![b'?'; constant]));
    bytes.push(connective(random));
    if bytes.len() < MOST && random.chance(1, 2) {
        bytes.push(0);
    }
    bytes
}

/// An equation with a fault of a chosen kind.
fn damaged(random: &mut Random, files: &[Vec<u8>]) -> Vec<u8> {
    let mut bytes = leaf(random, files);
    match random.below(14) {
        0 => bytes.clear(),
        1 => bytes = vec![0],
        2 => bytes[0] = 0xe0 | random.below(32) as u8,
        3 => bytes[0] = 0x80 | random.below(128) as u8,
        4 => {
            let code = *random.pick(&[0x93, 0xa3, 0xc3, 0xd3]);
            bytes = relation(code, 0x22, b"m");
        }
        5 => {
            let length = *random.pick(&[0, 3, 5, 8]);
            bytes = relation(0x90, 0x12, &random.bytes(length));
        }
        6 => bytes = relation(*random.pick(&[0x83, 0xb3]), 0x22, b"a*b*c**d*"),
        7 => bytes.truncate(random.below(bytes.len())),
        8 => bytes.extend([0, *random.pick(&[0, 1, 0x83])]),
        9 => bytes.push(connective(random)),
        10 => bytes.extend(leaf(random, files)),
        11 => bytes.push(*random.pick(&[3, 4, 0x10, 0x7f])),
        12 => {
            bytes = tree(random, files);
            let at = random.below(bytes.len());
            bytes[at] = random.byte();
        }
        _ => {
            let length = random.below(40);
            bytes = random.bytes(length);
        }
    }
    bytes.truncate(MOST);
    bytes
}
