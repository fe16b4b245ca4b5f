//! The PACSAT file header: the walk over its items, the checks at DATA_END in
//! their order, the destinations, the entries of directories, and the fields
//! that the server sets.
//!
//! A header is AA 55, then items of id (2 bytes), length (1) and data, then
//! the end mark 00 00 00.

use crate::packet::number;
use crate::refusal::{BAD_HEADER, BODY_CHECK, HEADER_CHECK, MANDATORY_FIELD_MISSING, NO_HEADER};

pub const MARK: [u8; 2] = [0xaa, 0x55];

pub const FILE_NUMBER: u16 = 0x01;
pub const FILE_NAME: u16 = 0x02;
pub const FILE_EXT: u16 = 0x03;
pub const FILE_SIZE: u16 = 0x04;
pub const CREATE_TIME: u16 = 0x05;
pub const LAST_MODIFIED_TIME: u16 = 0x06;
pub const SEU_FLAG: u16 = 0x07;
pub const FILE_TYPE: u16 = 0x08;
pub const BODY_CHECKSUM: u16 = 0x09;
pub const HEADER_CHECKSUM: u16 = 0x0a;
pub const BODY_OFFSET: u16 = 0x0b;
pub const UPLOAD_TIME: u16 = 0x12;
pub const DESTINATION: u16 = 0x14;

/// The listed ids with their lengths. All twelve are mandatory.
pub const LISTED: [(u16, usize); 12] = [
    (FILE_NUMBER, 4),
    (FILE_NAME, 8),
    (FILE_EXT, 3),
    (FILE_SIZE, 4),
    (CREATE_TIME, 4),
    (LAST_MODIFIED_TIME, 4),
    (SEU_FLAG, 1),
    (FILE_TYPE, 1),
    (BODY_CHECKSUM, 2),
    (HEADER_CHECKSUM, 2),
    (BODY_OFFSET, 2),
    (UPLOAD_TIME, 4),
];

/// The length of an item's id and length together, and of the end mark.
const ITEM_HEAD: usize = 3;

#[derive(Clone, Copy, Debug, PartialEq, Eq)]
pub struct Item {
    pub id: u16,
    /// Where its data begin in the file.
    pub at: usize,
    pub length: usize,
}

impl Item {
    pub fn data<'a>(&self, file: &'a [u8]) -> &'a [u8] {
        &file[self.at..self.at + self.length]
    }

    fn after(&self) -> usize {
        self.at + self.length
    }
}

/// What stands at one place of the walk.
enum Step {
    End,
    Item(Item),
    RunsOut,
}

fn step(file: &[u8], at: usize) -> Step {
    let head = match file.get(at..at + ITEM_HEAD) {
        Some(head) => head,
        None => return Step::RunsOut,
    };
    let item = Item {
        id: number(&head[..2]) as u16,
        at: at + ITEM_HEAD,
        length: usize::from(head[2]),
    };
    if item.id == 0 && item.length == 0 {
        Step::End
    } else if item.after() > file.len() {
        Step::RunsOut
    } else {
        Step::Item(item)
    }
}

/// The items of any bytes: those after AA 55 up to the end mark or to the
/// first item that runs out; none where AA 55 is missing.
pub fn items(file: &[u8]) -> Vec<Item> {
    let mut items = Vec::new();
    if !file.starts_with(&MARK) {
        return items;
    }
    let mut at = MARK.len();
    while let Step::Item(item) = step(file, at) {
        at = item.after();
        items.push(item);
    }
    items
}

/// The data of the first item with that id.
pub fn first(file: &[u8], id: u16) -> Option<&[u8]> {
    items(file)
        .iter()
        .find(|item| item.id == id)
        .map(|item| item.data(file))
}

/// The data of every item with that id, in the header's order.
pub fn each(file: &[u8], id: u16) -> Vec<&[u8]> {
    items(file)
        .iter()
        .filter(|item| item.id == id)
        .map(|item| item.data(file))
        .collect()
}

/// How many destinations the file has.
pub fn destinations(file: &[u8]) -> usize {
    items(file)
        .iter()
        .filter(|item| item.id == DESTINATION)
        .count()
}

/// The entry of a file in a long directory: its header's bytes from AA to the
/// end mark. Of bytes that are no header it is what `items` finds of one.
pub fn long_entry(file: &[u8]) -> Vec<u8> {
    let items = items(file);
    let mut end = match items.last() {
        Some(last) => last.after(),
        None if file.starts_with(&MARK) => MARK.len(),
        None => return Vec::new(),
    };
    if let Step::End = step(file, end) {
        end += ITEM_HEAD;
    }
    file[..end].to_vec()
}

/// The entry of a file in a short directory: AA 55, the mandatory items as
/// they are stored and in that order, and the end mark.
pub fn short_entry(file: &[u8]) -> Vec<u8> {
    let mut entry = MARK.to_vec();
    for item in items(file) {
        if LISTED.iter().any(|(id, _)| *id == item.id) {
            entry.extend(&file[item.at - ITEM_HEAD..item.after()]);
        }
    }
    entry.extend([0; ITEM_HEAD]);
    entry
}

/// Why a file is refused at DATA_END.
#[derive(Clone, Copy, Debug, PartialEq, Eq, PartialOrd, Ord)]
pub enum Fault {
    TooFewBytes,
    NoMark,
    ItemsRunOut,
    ZeroIdWithLength,
    WrongLength,
    ListedTwice,
    NotRisingAhead,
    Missing,
    WrongBodyOffset,
    WrongFileSize,
    WrongHeaderSum,
    WrongBodySum,
}

impl Fault {
    pub const ALL: [Fault; 12] = [
        Fault::TooFewBytes,
        Fault::NoMark,
        Fault::ItemsRunOut,
        Fault::ZeroIdWithLength,
        Fault::WrongLength,
        Fault::ListedTwice,
        Fault::NotRisingAhead,
        Fault::Missing,
        Fault::WrongBodyOffset,
        Fault::WrongFileSize,
        Fault::WrongHeaderSum,
        Fault::WrongBodySum,
    ];

    pub fn number(self) -> u8 {
        match self {
            Fault::TooFewBytes | Fault::WrongBodySum => BODY_CHECK,
            Fault::NoMark => NO_HEADER,
            Fault::ItemsRunOut
            | Fault::ZeroIdWithLength
            | Fault::WrongLength
            | Fault::ListedTwice
            | Fault::NotRisingAhead
            | Fault::WrongBodyOffset
            | Fault::WrongFileSize => BAD_HEADER,
            Fault::Missing => MANDATORY_FIELD_MISSING,
            Fault::WrongHeaderSum => HEADER_CHECK,
        }
    }
}

/// A header whose walk found nothing wrong.
#[derive(Clone, Debug, PartialEq, Eq)]
pub struct Header {
    pub items: Vec<Item>,
    /// Its length with AA 55 and the end mark.
    pub length: usize,
}

impl Header {
    fn item(&self, id: u16) -> Option<&Item> {
        self.items.iter().find(|item| item.id == id)
    }

    /// A mandatory item of a header that was checked to have it.
    fn mandatory(&self, id: u16) -> &Item {
        self.item(id).expect("a header with all mandatory items")
    }

    fn value(&self, file: &[u8], id: u16) -> u32 {
        number(self.mandatory(id).data(file))
    }
}

/// Walks the items to the end mark. AA 55 has been seen.
fn walk(file: &[u8]) -> Result<Header, Fault> {
    let mut items: Vec<Item> = Vec::new();
    let mut at = MARK.len();
    loop {
        match step(file, at) {
            Step::RunsOut => return Err(Fault::ItemsRunOut),
            Step::End => {
                let length = at + ITEM_HEAD;
                return Ok(Header { items, length });
            }
            Step::Item(item) => {
                admit(&items, &item)?;
                at = item.after();
                items.push(item);
            }
        }
    }
}

/// Whether an item may follow those before it.
fn admit(before: &[Item], item: &Item) -> Result<(), Fault> {
    if item.id == 0 {
        return Err(Fault::ZeroIdWithLength);
    }
    let length = match LISTED.iter().find(|(id, _)| *id == item.id) {
        Some(&(_, length)) => length,
        None => return Ok(()),
    };
    if item.length != length {
        return Err(Fault::WrongLength);
    }
    if before.iter().any(|earlier| earlier.id == item.id) {
        return Err(Fault::ListedTwice);
    }
    // Ids 01 to 0b rise and stand ahead of all others: no earlier id, a 12h or
    // an unknown one included, may be larger.
    if item.id <= BODY_OFFSET && before.iter().any(|earlier| earlier.id > item.id) {
        return Err(Fault::NotRisingAhead);
    }
    Ok(())
}

/// The sum of bytes, modulo 65,536.
pub fn sum(bytes: &[u8]) -> u16 {
    bytes
        .iter()
        .fold(0, |sum, &byte| sum.wrapping_add(u16::from(byte)))
}

/// The header's sum, with the two bytes of header_checksum taken as zero.
fn header_sum(file: &[u8], header: &Header) -> u16 {
    let own = header.mandatory(HEADER_CHECKSUM);
    sum(&file[..own.at]).wrapping_add(sum(&file[own.after()..header.length]))
}

/// The checks at DATA_END, in their order, of the bytes received for a file
/// of that announced length.
pub fn check(received: &[u8], announced: u32) -> Result<Header, Fault> {
    let file = match received.get(..announced as usize) {
        Some(file) => file,
        None => return Err(Fault::TooFewBytes),
    };
    if !file.starts_with(&MARK) {
        return Err(Fault::NoMark);
    }
    let header = walk(file)?;
    if LISTED.iter().any(|(id, _)| header.item(*id).is_none()) {
        return Err(Fault::Missing);
    }
    if header.value(file, BODY_OFFSET) as usize != header.length {
        return Err(Fault::WrongBodyOffset);
    }
    if header.value(file, FILE_SIZE) != announced {
        return Err(Fault::WrongFileSize);
    }
    if header.value(file, HEADER_CHECKSUM) != u32::from(header_sum(file, &header)) {
        return Err(Fault::WrongHeaderSum);
    }
    if header.value(file, BODY_CHECKSUM) != u32::from(sum(&file[header.length..])) {
        return Err(Fault::WrongBodySum);
    }
    Ok(header)
}

/// The name of a file with that upload time: "the upload time in lower-case
/// hexadecimal, eight digits", the highest first. (request A7)
pub fn file_name(upload_time: u32) -> Vec<u8> {
    format!("{upload_time:08x}").into_bytes()
}

/// Sets the five fields that are the server's at completion. header_checksum is
/// the last, since it is the sum of the header as stored.
pub fn set_server_fields(file: &mut [u8], header: &Header, file_number: u32, upload_time: u32) {
    let mut set = |id: u16, value: &[u8]| {
        let item = header.mandatory(id);
        file[item.at..item.after()].copy_from_slice(value);
    };
    set(FILE_NUMBER, &file_number.to_le_bytes());
    set(UPLOAD_TIME, &upload_time.to_le_bytes());
    set(LAST_MODIFIED_TIME, &upload_time.to_le_bytes());
    set(FILE_NAME, &file_name(upload_time));
    let sum = header_sum(file, header);
    let item = header.mandatory(HEADER_CHECKSUM);
    file[item.at..item.after()].copy_from_slice(&sum.to_le_bytes());
}
