//! Files being drawn up, sound or with chosen faults, for tests and random
//! scripts. It is written apart from the checks in `header`, so that each can
//! show a mistake of the other.

/// The twelve mandatory items, all zero.
const MANDATORY: [(u16, usize); 12] = [
    (0x01, 4),
    (0x02, 8),
    (0x03, 3),
    (0x04, 4),
    (0x05, 4),
    (0x06, 4),
    (0x07, 1),
    (0x08, 1),
    (0x09, 2),
    (0x0a, 2),
    (0x0b, 2),
    (0x12, 4),
];

/// A file by its parts. The sizes and sums are worked out when the bytes are
/// asked for; the errors are then added to the values so worked out.
#[derive(Clone, Debug, PartialEq, Eq)]
pub struct Draft {
    pub mark: [u8; 2],
    pub items: Vec<(u16, Vec<u8>)>,
    pub end: Vec<u8>,
    pub body: Vec<u8>,
    pub size_error: u32,
    pub offset_error: u16,
    pub header_sum_error: u16,
    pub body_sum_error: u16,
}

impl Default for Draft {
    fn default() -> Draft {
        Draft::new()
    }
}

impl Draft {
    /// Only the mandatory items, and no body.
    pub fn new() -> Draft {
        Draft {
            mark: [0xaa, 0x55],
            items: MANDATORY
                .iter()
                .map(|(id, length)| (*id, vec![0; *length]))
                .collect(),
            end: vec![0; 3],
            body: Vec::new(),
            size_error: 0,
            offset_error: 0,
            header_sum_error: 0,
            body_sum_error: 0,
        }
    }

    pub fn with_item(mut self, id: u16, data: &[u8]) -> Draft {
        self.items.push((id, data.to_vec()));
        self
    }

    pub fn with_body(mut self, body: &[u8]) -> Draft {
        self.body = body.to_vec();
        self
    }

    /// Where the first item with that id stands in the list.
    pub fn place(&self, id: u16) -> Option<usize> {
        self.items.iter().position(|(other, _)| *other == id)
    }

    pub fn without(mut self, id: u16) -> Draft {
        self.items.retain(|(other, _)| *other != id);
        self
    }

    /// Replaces the data of the first item with that id, where there is one.
    pub fn set(&mut self, id: u16, data: &[u8]) {
        if let Some(place) = self.place(id) {
            self.items[place].1 = data.to_vec();
        }
    }

    /// Sets a number worked out here, unless the item was given another length.
    fn fill(&mut self, id: u16, data: &[u8]) {
        if let Some(place) = self.place(id) {
            if self.items[place].1.len() == data.len() {
                self.items[place].1 = data.to_vec();
            }
        }
    }

    fn header(&self) -> Vec<u8> {
        let mut bytes = self.mark.to_vec();
        for (id, data) in &self.items {
            bytes.extend(id.to_le_bytes());
            bytes.push(data.len() as u8);
            bytes.extend(data);
        }
        bytes.extend(&self.end);
        bytes
    }

    /// The file's bytes.
    pub fn bytes(&self) -> Vec<u8> {
        let mut draft = self.clone();
        let offset = draft.header().len();
        let size = (offset + self.body.len()) as u32;
        let size = size.wrapping_add(self.size_error);
        let body_sum = total(&self.body).wrapping_add(self.body_sum_error);
        draft.fill(0x04, &size.to_le_bytes());
        draft.fill(
            0x0b,
            &(offset as u16)
                .wrapping_add(self.offset_error)
                .to_le_bytes(),
        );
        draft.fill(0x09, &body_sum.to_le_bytes());
        draft.fill(0x0a, &[0, 0]);
        let header_sum = total(&draft.header()).wrapping_add(self.header_sum_error);
        draft.fill(0x0a, &header_sum.to_le_bytes());
        let mut bytes = draft.header();
        bytes.extend(&self.body);
        bytes
    }
}

fn total(bytes: &[u8]) -> u16 {
    let sum: u64 = bytes.iter().map(|&byte| u64::from(byte)).sum();
    (sum % 65_536) as u16
}
