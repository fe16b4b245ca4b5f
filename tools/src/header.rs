//! The items of a file's header, as far as they can be read.
use crate::bytes::{number, quoted, to_hex};
use crate::names::*;

#[derive(Clone, Debug, PartialEq, Eq)]
pub struct Item<'a> {
    /// The place of its id in the file.
    pub at: usize,
    pub id: u16,
    pub data: &'a [u8],
}

/// How the reading of a header ended.
#[derive(Clone, Debug, PartialEq, Eq)]
pub enum End {
    /// The end mark; the header has so many bytes.
    Whole(usize),
    /// The bytes run out in what begins at this place.
    RunsOut(usize),
    /// Id 0 with a length, at this place.
    ZeroId(usize),
    NoMark,
}

/// The items up to the end.
pub fn read(file: &[u8]) -> (Vec<Item<'_>>, End) {
    let mut items = Vec::new();
    if !file.starts_with(&[0xaa, 0x55]) {
        return (items, End::NoMark);
    }
    let mut at = 2;
    loop {
        let rest = &file[at..];
        if rest.len() < 3 {
            return (items, End::RunsOut(at));
        }
        let id = u16::from_le_bytes([rest[0], rest[1]]);
        let length = usize::from(rest[2]);
        match (id, length) {
            (0, 0) => return (items, End::Whole(at + 3)),
            (0, _) => return (items, End::ZeroId(at)),
            _ if rest.len() < 3 + length => return (items, End::RunsOut(at)),
            _ => items.push(Item {
                at,
                id,
                data: &rest[3..3 + length],
            }),
        }
        at += 3 + length;
    }
}

/// The data of the first item with that id.
pub fn first(file: &[u8], id: u16) -> Option<Vec<u8>> {
    let (items, _) = read(file);
    items
        .iter()
        .find(|item| item.id == id)
        .map(|item| item.data.to_vec())
}

const NUMBERS: [u16; 11] = [
    0x01, 0x04, 0x05, 0x06, 0x07, 0x08, 0x09, 0x0a, 0x0b, 0x12, 0x18,
];

/// An item's data in words: a number where the item is one and 1, 2 or 4 bytes long, else text, else hex.
pub fn value(item: &Item) -> String {
    let is_number = NUMBERS.contains(&item.id) || width_of(item.id) > 1;
    if is_number && matches!(item.data.len(), 1 | 2 | 4) {
        return number(item.data).to_string();
    }
    match item.data.iter().all(|byte| matches!(byte, b' '..=b'~')) {
        true => quoted(item.data),
        false => format!("bytes {}", to_hex(item.data)),
    }
}
