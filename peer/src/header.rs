//! The PACSAT file header, read where it is stored.
//!
//! The checks at DATA_END leave no choice for the first eleven items: ids 01 to 0b rise ahead of all others and each is there once, with its length. So in a
//! complete file they stand at fixed places of the first block, and only the others are searched for.

use crate::packet::number;
use crate::refusal::{BAD_HEADER, BODY, HEADER_SUM, ITEM_MISSING, NO_HEADER};
use crate::store::{sum, Cursor, File, Store};

const MARK: [u8; 2] = [0xaa, 0x55];
pub const FILE_NUMBER: u16 = 0x01;
pub const FILE_NAME: u16 = 0x02;
pub const FILE_SIZE: u16 = 0x04;
pub const LAST_MODIFIED_TIME: u16 = 0x06;
pub const BODY_CHECKSUM: u16 = 0x09;
pub const HEADER_CHECKSUM: u16 = 0x0a;
pub const BODY_OFFSET: u16 = 0x0b;
pub const UPLOAD_TIME: u16 = 0x12;
const DESTINATION: u16 = 0x14;

/// The lengths of the mandatory items by id; 0 where an id is no such item's.
const LENGTHS: [usize; 0x13] = [0, 4, 8, 3, 4, 4, 4, 1, 1, 2, 2, 2, 0, 0, 0, 0, 0, 0, 4];
/// All mandatory ids, a bit each.
const ALL: u32 = 0x4_0ffe;
/// Where the data of ids 01 to 0b stand in a complete file.
const AT: [usize; 12] = [0, 5, 12, 23, 29, 36, 43, 50, 54, 58, 63, 68];
/// Where the items after 0b begin.
const FIXED: usize = 70;
/// The length of an item's id and length together, and of the end mark.
const ITEM_HEAD: usize = 3;
/// The length of every entry in a short directory.
pub const SHORT_ENTRY: usize = 80;

/// The data of an item of ids 01 to 0b.
pub fn field<'a>(store: &'a Store, file: &File, id: u16) -> &'a [u8] {
    let id = usize::from(id);
    &store.first_block(file)[AT[id]..AT[id] + LENGTHS[id]]
}

/// The next item's id and length, with the cursor at its data.
fn item(store: &Store, cursor: &mut Cursor) -> (u16, usize) {
    let mut head = [0; ITEM_HEAD];
    store.read(cursor, &mut head);
    let [low, high, length] = head;
    (u16::from_le_bytes([low, high]), usize::from(length))
}

/// Whether some item after 0b with that id meets a test on its data. Data are copied only where they cross a block's end.
pub fn any_item(store: &Store, file: &File, wanted: u16, test: impl Fn(&[u8]) -> bool) -> bool {
    let mut cursor = file.start();
    store.skip(&mut cursor, FIXED);
    loop {
        match item(store, &mut cursor) {
            (0, _) => return false,
            (id, length) if id == wanted => {
                let start = cursor;
                let data = store.run(&mut cursor, length);
                let met = if data.len() == length {
                    test(data)
                } else {
                    let mut copy = [0; 255];
                    cursor = start;
                    store.read(&mut cursor, &mut copy[..length]);
                    test(&copy[..length])
                };
                if met {
                    return true;
                }
            }
            (_, length) => store.skip(&mut cursor, length),
        }
    }
}

/// A file's entry in a short directory: AA 55 and ids 01 to 0b as they are stored, upload_time, the end mark.
pub fn short_entry(store: &Store, file: &File) -> [u8; SHORT_ENTRY] {
    let mut entry = [0; SHORT_ENTRY];
    entry[..FIXED].copy_from_slice(&store.first_block(file)[..FIXED]);
    entry[FIXED..FIXED + ITEM_HEAD].copy_from_slice(&[UPLOAD_TIME as u8, 0, 4]);
    entry[FIXED + ITEM_HEAD..SHORT_ENTRY - ITEM_HEAD]
        .copy_from_slice(&file.upload_time.to_le_bytes());
    entry
}

/// What the checks find in a header.
pub struct Found {
    pub length: u16,
    pub destinations: u16,
    /// The header's sum, its own two bytes taken as zero.
    sum: u16,
    upload_time: Cursor,
}

/// The checks at DATA_END, in their order.
pub fn check(store: &Store, file: &File) -> Result<Found, u8> {
    if file.received < file.length {
        return Err(BODY);
    }
    if file.length < 2 || store.first_block(file)[..2] != MARK {
        return Err(NO_HEADER);
    }
    let (length, destinations, upload_time) = walk(store, file)?;
    let short = |id: u16| {
        let data = field(store, file, id);
        u16::from_le_bytes([data[0], data[1]])
    };
    if usize::from(short(BODY_OFFSET)) != length {
        return Err(BAD_HEADER);
    }
    if number(field(store, file, FILE_SIZE)) != file.length {
        return Err(BAD_HEADER);
    }
    let whole = header_sum(store, file, length);
    let own = sum(field(store, file, HEADER_CHECKSUM));
    let found = Found {
        length: length as u16,
        // a header of at most 65,535 bytes has not so many
        destinations: destinations as u16,
        sum: whole.wrapping_sub(own),
        upload_time,
    };
    if short(HEADER_CHECKSUM) != found.sum {
        return Err(HEADER_SUM);
    }
    if short(BODY_CHECKSUM) != file.sum.wrapping_sub(whole) {
        return Err(BODY);
    }
    Ok(found)
}

/// The walk over the items: the header's length, how many destinations it has, and where the data of upload_time stand.
fn walk(store: &Store, file: &File) -> Result<(usize, u32, Cursor), u8> {
    let mut cursor = file.start();
    store.skip(&mut cursor, MARK.len());
    let mut left = file.length as usize - MARK.len();
    let (mut seen, mut largest, mut destinations) = (0, 0, 0);
    let mut upload_time = cursor;
    loop {
        left = left.checked_sub(ITEM_HEAD).ok_or(BAD_HEADER)?;
        let (id, length) = item(store, &mut cursor);
        if id == 0 && length == 0 {
            break;
        }
        left = left.checked_sub(length).ok_or(BAD_HEADER)?;
        let listed = LENGTHS.get(usize::from(id)).map_or(0, |length| *length);
        if listed != 0 {
            let bit = 1 << id;
            if length != listed || seen & bit != 0 || id <= BODY_OFFSET && id < largest {
                return Err(BAD_HEADER);
            }
            seen |= bit;
        }
        match id {
            0 => return Err(BAD_HEADER),
            UPLOAD_TIME => upload_time = cursor,
            DESTINATION => destinations += 1,
            _ => {}
        }
        largest = largest.max(id);
        store.skip(&mut cursor, length);
    }
    match seen {
        ALL => Ok((file.length as usize - left, destinations, upload_time)),
        _ => Err(ITEM_MISSING),
    }
}

/// The sum of a file's first bytes.
fn header_sum(store: &Store, file: &File, length: usize) -> u16 {
    let (mut cursor, mut left, mut total) = (file.start(), length, 0u16);
    while left > 0 {
        let run = store.run(&mut cursor, left);
        total = total.wrapping_add(sum(run));
        left -= run.len();
    }
    total
}

/// Sets the five fields that are the server's at completion.
pub fn set_server_fields(store: &mut Store, file: &File, found: &Found) {
    let time = file.upload_time.to_le_bytes();
    let mut total = found.sum;
    let mut cursor = found.upload_time;
    for byte in time {
        let old = store.replace(&mut cursor, byte);
        total = total
            .wrapping_sub(u16::from(old))
            .wrapping_add(u16::from(byte));
    }
    let block = store.first_block_mut(file);
    let mut set = |id: u16, value: &[u8]| {
        let at = AT[usize::from(id)];
        let data = &mut block[at..at + value.len()];
        total = total.wrapping_sub(sum(data)).wrapping_add(sum(value));
        data.copy_from_slice(value);
    };
    set(FILE_NUMBER, &file.number.to_le_bytes());
    set(LAST_MODIFIED_TIME, &time);
    set(FILE_NAME, &file_name(file.upload_time));
    let at = AT[usize::from(HEADER_CHECKSUM)];
    block[at..at + 2].copy_from_slice(&total.to_le_bytes());
}

/// The upload time in lower-case hexadecimal, eight digits.
fn file_name(upload_time: u32) -> [u8; 8] {
    std::array::from_fn(|i| b"0123456789abcdef"[(upload_time >> (28 - 4 * i)) as usize & 15])
}
