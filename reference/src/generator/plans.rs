//! Files that a random client means to upload, sound ones and damaged ones.

use crate::draft::Draft;
use crate::header::{BODY_OFFSET, DESTINATION, UPLOAD_TIME};
use crate::random::Random;

/// What a client means to send under one file number.
#[derive(Clone, Debug, PartialEq, Eq)]
pub struct Plan {
    /// The length that UPLOAD_CMD announces.
    pub announced: u32,
    /// The bytes sent as DATA before DATA_END.
    pub bytes: Vec<u8>,
}

impl Plan {
    pub(super) fn whole(bytes: Vec<u8>) -> Plan {
        Plan {
            announced: bytes.len() as u32,
            bytes,
        }
    }
}

const STATIONS: [&[u8]; 4] = [b"G0K8KA", b"NK6K", b"ALL", b"g0k8ka"];
const WORDS: [&[u8]; 7] = [
    b"Landrover",
    b"land",
    b"LANDSCAPE",
    b"rover*",
    b"m",
    b"",
    b"What? a*b",
];
/// Items that a file may have besides the mandatory ones; some ids are unknown
/// and some differ from listed ones only in the high byte.
const OTHERS: [u16; 14] = [
    0x10, 0x11, 0x18, 0x22, 0x22, 0x23, 0x24, 0x26, 0x0c, 0x0101, 0x0112, 0x0114, 0x0122, 0xffff,
];

/// A title, which like a destination may stand in a header several times.
const TITLE: u16 = 0x22;
/// The lengths of items that are numbers, and of some that are none.
const WIDTHS: [usize; 7] = [1, 2, 4, 0, 3, 5, 8];

/// How files are to be made.
#[derive(Clone, Copy, Debug)]
pub struct Wishes {
    /// Of 100 files, so many are damaged.
    pub damaged: usize,
    /// Of 100 files, so many are long.
    pub long: usize,
    /// The most body bytes of a file that is not long.
    pub body: usize,
}

/// The next file to upload.
pub fn plan(random: &mut Random, wishes: Wishes) -> Plan {
    if random.chance(wishes.long, 100) {
        return long(random);
    }
    if !random.chance(wishes.damaged, 100) {
        return Plan::whole(sound(random, wishes.body).bytes());
    }
    match random.below(10) {
        0 => short(random),
        1 => {
            let length = random.below(120);
            Plan::whole(random.bytes(length))
        }
        2 | 3 => misjudged(random, wishes.body),
        _ => Plan::whole(damaged(random, wishes.body)),
    }
}

/// A sound file with random fields, items and body.
pub fn sound(random: &mut Random, body: usize) -> Draft {
    let mut draft = Draft::new().without(UPLOAD_TIME);
    for (id, length) in [(0x01, 4), (0x02, 8), (0x03, 3), (0x05, 4), (0x06, 4)] {
        if random.chance(1, 3) {
            draft.set(id, &random.bytes(length));
        }
    }
    for id in [0x07, 0x08] {
        draft.set(id, &[random.below(3) as u8]);
    }
    for _ in 0..random.below(5) {
        let (id, data) = other_item(random);
        draft = draft.with_item(id, &data);
    }
    if random.chance(1, 2) {
        add_several(random, &mut draft);
    }
    if random.chance(1, 80) {
        // More destinations than a byte can count.
        for _ in 0..random.between(250, 262) {
            draft = draft.with_item(DESTINATION, b"");
        }
    }
    let place = if random.chance(1, 8) {
        reach_block_border(random, &mut draft);
        draft.items.len()
    } else {
        random.between(11, draft.items.len())
    };
    let time = if random.chance(1, 2) {
        vec![0; 4]
    } else {
        random.bytes(4)
    };
    draft.items.insert(place, (UPLOAD_TIME, time));
    let length = match random.below(6) {
        0 => 0,
        // Lengths about the border of a block.
        1 => (random.between(1, 4) * 256)
            .saturating_sub(draft.bytes().len() + random.below(3))
            .min(body),
        _ => random.below(body + 1),
    };
    draft.with_body(&random.bytes(length))
}

/// A sound file with a large header: items of many bytes, or a header that ends
/// at the border of a block or near it.
pub fn wide(random: &mut Random) -> Draft {
    let mut draft = sound(random, 40);
    let most = match random.below(12) {
        0 => 14_000,
        1..=3 => 5_000,
        _ => 1_500,
    };
    let target = match random.below(3) {
        0 => random.between(1, most / 256) * 256 + random.below(3) - 1,
        _ => random.between(100, most),
    };
    loop {
        let header = draft.bytes().len() - draft.body.len();
        // An item's id and length take three bytes.
        let room = match target.checked_sub(header + 3) {
            Some(room) => room,
            None => return draft,
        };
        let length = match room {
            0..=255 => room,
            _ => random.between(room.min(258) - 200, 252),
        };
        let at = random.between(11, draft.items.len());
        let id = *random.pick(&[0x22, 0x23, 0x24, 0x30, 0x0112, DESTINATION]);
        draft.items.insert(at, (id, random.bytes(length)));
    }
}

/// Adds an item such that the data of upload_time, coming next, lie across the
/// border of two blocks.
fn reach_block_border(random: &mut Random, draft: &mut Draft) {
    // The new item's head takes the end mark's room; upload_time has its own.
    let data_without = draft.bytes().len() + 3;
    let to_border = 256 - data_without % 256;
    let length = to_border.saturating_sub(random.between(1, 3));
    draft.items.push((0x30, random.bytes(length)));
}

fn other_item(random: &mut Random) -> (u16, Vec<u8>) {
    if random.chance(1, 3) {
        return (DESTINATION, random.pick(&STATIONS).to_vec());
    }
    let id = *random.pick(&OTHERS);
    let data = match random.below(6) {
        0 => random.pick(&STATIONS).to_vec(),
        1 => vec![random.below(5) as u8],
        2 => (random.below(600) as u16).to_le_bytes().to_vec(),
        3 => (random.below(70_000) as u32).to_le_bytes().to_vec(),
        4 if random.chance(1, 4) => vec![b'x'; random.between(150, 255)],
        _ => random.pick(&WORDS).to_vec(),
    };
    (id, data)
}

/// Adds two or more items of one id, as "a letter to two people" has, anywhere
/// behind the first eleven. Numbers and other widths stand among them.
fn add_several(random: &mut Random, draft: &mut Draft) {
    let id = match random.below(6) {
        0..=2 => DESTINATION,
        3 => TITLE,
        _ => *random.pick(&OTHERS),
    };
    for _ in 0..random.between(2, 4) {
        let data = match random.below(6) {
            _ if id == DESTINATION && random.chance(1, 2) => random.pick(&STATIONS).to_vec(),
            0 => random.pick(&STATIONS).to_vec(),
            1 | 2 => random.pick(&WORDS).to_vec(),
            _ => {
                let mut number = vec![0; *random.pick(&WIDTHS)];
                if let Some(lowest) = number.first_mut() {
                    *lowest = random.below(5) as u8;
                }
                number
            }
        };
        let at = random.between(11, draft.items.len());
        draft.items.insert(at, (id, data));
    }
}

/// A file with one fault or two.
fn damaged(random: &mut Random, body: usize) -> Vec<u8> {
    let mut draft = sound(random, body);
    for _ in 0..random.between(1, 2) {
        damage(random, &mut draft);
    }
    let mut bytes = draft.bytes();
    if random.chance(1, 10) {
        let at = random.below(bytes.len());
        bytes[at] = random.byte();
    }
    if random.chance(1, 12) {
        let length = random.below(bytes.len());
        bytes.truncate(length);
    }
    bytes
}

fn damage(random: &mut Random, draft: &mut Draft) {
    match random.below(13) {
        0 => draft.mark[random.below(2)] ^= 1 << random.below(8),
        1 => draft.end = vec![0x30, 0, 255],
        2 => {
            draft.end.clear();
            draft.body.clear();
        }
        3 => draft.items.push((0, vec![0; random.between(1, 4)])),
        4 => {
            let length = random.below(12);
            draft.set(listed(random), &random.bytes(length));
        }
        5 => {
            if let Some(place) = draft.place(listed(random)) {
                let again = draft.items[place].clone();
                let at = random.between(place, draft.items.len());
                draft.items.insert(at, again);
            }
        }
        6 => {
            let one = random.below(draft.items.len());
            let other = random.below(draft.items.len());
            draft.items.swap(one, other);
        }
        7 => {
            let at = random.below(11.min(draft.items.len()));
            draft.items.insert(at, other_item(random));
        }
        8 => {
            let id = listed(random);
            draft.items.retain(|(other, _)| *other != id);
        }
        9 => draft.offset_error = 1 << random.below(16),
        10 => draft.size_error = 1 << random.below(32),
        11 => draft.header_sum_error = 1 << random.below(16),
        _ => draft.body_sum_error = 1 << random.below(16),
    }
}

/// A listed id; the last two, whose place is special, more often.
fn listed(random: &mut Random) -> u16 {
    match random.below(15) {
        0 | 1 => BODY_OFFSET,
        2..=4 => UPLOAD_TIME,
        other => other as u16 - 4,
    }
}

/// Files of so few bytes that they can't be sound.
fn short(random: &mut Random) -> Plan {
    let files: [&[u8]; 6] = [
        b"",
        b"\xaa",
        b"\xaa\x55",
        b"\x55\xaa",
        b"\xaa\x55\0\0\0",
        b"\xaa\x55\0\0\x01",
    ];
    Plan::whole(random.pick(&files).to_vec())
}

/// A sound file announced as longer or shorter than it is.
fn misjudged(random: &mut Random, body: usize) -> Plan {
    let bytes = sound(random, body).bytes();
    let length = bytes.len() as u32;
    let difference = random.between(1, 40) as u32;
    let announced = if random.chance(1, 2) {
        length + difference
    } else {
        length - difference
    };
    Plan { announced, bytes }
}

/// A long file, or one so long that there is no room for it; only its
/// beginning is ever sent.
fn long(random: &mut Random) -> Plan {
    if random.chance(1, 25) {
        let length = random.between(3_000, 12_000);
        return Plan::whole(sound(random, length).bytes());
    }
    let announced = match random.below(8) {
        0 => u32::MAX - random.below(300) as u32,
        1 => 32_768 + random.below(3) as u32,
        2 => random.between(33_000, 100_000) as u32,
        _ => random.between(1, 60) as u32 * 256 + random.below(3) as u32 - 1,
    };
    let mut bytes = Draft::new().bytes();
    bytes.truncate(announced as usize);
    Plan { announced, bytes }
}
