//! A file in words: its items and its body, and the bytes that they make.
use crate::bytes::{numbered, sum};
use crate::names::*;

/// What an item is given.
#[derive(Clone, Debug, PartialEq, Eq)]
pub enum Value {
    Text(Vec<u8>),
    Number(u32, Option<usize>),
    Bytes(Vec<u8>),
}

/// A file. What is not said is 0, blank or worked out.
#[derive(Clone, Debug, Default, PartialEq, Eq)]
pub struct Draft {
    /// Mandatory items that are said.
    pub given: Vec<(u16, Value)>,
    /// The other items, in their order.
    pub others: Vec<(u16, Value)>,
    /// Items as they stand, behind all others.
    pub added: Vec<(u16, Value)>,
    pub left_out: Vec<u16>,
    pub body: Vec<u8>,
    pub wrong_header_sum: bool,
    pub wrong_body_sum: bool,
}

impl Value {
    /// The bytes of an item's data.
    pub fn bytes(&self, id: u16) -> Vec<u8> {
        match self {
            Value::Text(text) => filled(id, text),
            Value::Number(value, width) => {
                numbered(*value, width.unwrap_or_else(|| usual_width(id, *value)))
            }
            Value::Bytes(bytes) => bytes.clone(),
        }
    }
}

/// The text of file_name and file_ext is filled up with blanks.
fn filled(id: u16, text: &[u8]) -> Vec<u8> {
    let mut bytes = text.to_vec();
    if let (FILE_NAME | FILE_EXT, Some(length)) = (id, listed_length(id)) {
        bytes.resize(length.max(text.len()), b' ');
    }
    bytes
}

/// The item's width, or more if the number needs it.
pub fn usual_width(id: u16, value: u32) -> usize {
    let needed = match value {
        0..=0xff => 1,
        0x100..=0xffff => 2,
        _ => 4,
    };
    width_of(id).max(needed)
}

/// The data of a mandatory item of which nothing is said; sums and lengths come later.
fn resting(id: u16, length: usize) -> Vec<u8> {
    match id {
        FILE_NAME => filled(id, b"file"),
        FILE_EXT => b"txt".to_vec(),
        _ => vec![0; length],
    }
}

impl Draft {
    pub fn says(&self, id: u16) -> bool {
        self.given.iter().any(|(given, _)| *given == id)
    }

    fn layout(&self) -> Vec<(u16, Vec<u8>)> {
        let mut items = Vec::new();
        for (id, length) in MANDATORY {
            if self.left_out.contains(&id) {
                continue;
            }
            let given = self.given.iter().find(|(given, _)| *given == id);
            items.push((
                id,
                given.map_or_else(|| resting(id, length), |(_, value)| value.bytes(id)),
            ));
        }
        for (id, value) in self.others.iter().chain(&self.added) {
            items.push((*id, value.bytes(*id)));
        }
        items
    }

    /// The length of the header.
    pub fn header_length(&self) -> usize {
        let items = self.layout();
        5 + items.iter().map(|(_, data)| 3 + data.len()).sum::<usize>()
    }

    /// The file's bytes: lengths and sums worked out, the header's sum last.
    pub fn bytes(&self) -> Vec<u8> {
        let mut items = self.layout();
        let length = self.header_length();
        let body_sum = sum(&self.body).wrapping_add(self.wrong_body_sum.into());
        let worked_out = [
            (FILE_SIZE, (length + self.body.len()) as u32, 4),
            (BODY_OFFSET, length as u32, 2),
            (BODY_CHECKSUM, body_sum.into(), 2),
        ];
        for (id, value, width) in worked_out {
            self.put(&mut items, id, numbered(value, width));
        }
        let total = sum(&written(&items)).wrapping_add(self.wrong_header_sum.into());
        self.put(&mut items, HEADER_CHECKSUM, numbered(total.into(), 2));
        let mut bytes = written(&items);
        bytes.extend(&self.body);
        bytes
    }

    /// Puts a number into the first item with that id, unless the lesson says what stands there.
    fn put(&self, items: &mut [(u16, Vec<u8>)], id: u16, data: Vec<u8>) {
        let left_out = self.left_out.contains(&id);
        if self.says(id) || left_out {
            return;
        }
        if let Some(item) = items.iter_mut().find(|(item, _)| *item == id) {
            item.1 = data;
        }
    }
}

fn written(items: &[(u16, Vec<u8>)]) -> Vec<u8> {
    let mut bytes = vec![0xaa, 0x55];
    for (id, data) in items {
        bytes.extend(id.to_le_bytes());
        bytes.push(data.len() as u8);
        bytes.extend(data);
    }
    bytes.extend([0, 0, 0]);
    bytes
}
