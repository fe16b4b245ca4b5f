//! The names of items, their ids and the usual widths of their numbers.

/// Name, id, and the usual width in bytes, 1 where none is given.
pub const NAMES: [(&str, u16, usize); 28] = [
    ("FILE_NUMBER", 0x01, 4),
    ("FILE_NAME", 0x02, 1),
    ("FILE_EXT", 0x03, 1),
    ("FILE_SIZE", 0x04, 4),
    ("CREATE_TIME", 0x05, 4),
    ("LAST_MODIFIED_TIME", 0x06, 4),
    ("SEU_FLAG", 0x07, 1),
    ("FILE_TYPE", 0x08, 1),
    ("BODY_CHECKSUM", 0x09, 2),
    ("HEADER_CHECKSUM", 0x0a, 2),
    ("BODY_OFFSET", 0x0b, 2),
    ("SOURCE", 0x10, 1),
    ("AX25_UPLOADER", 0x11, 1),
    ("UPLOAD_TIME", 0x12, 4),
    ("DOWNLOAD_COUNT", 0x13, 1),
    ("DESTINATION", 0x14, 1),
    ("AX25_DOWNLOADER", 0x15, 1),
    ("DOWNLOAD_TIME", 0x16, 4),
    ("EXPIRE_TIME", 0x17, 4),
    ("PRIORITY", 0x18, 1),
    ("COMPRESSION_TYPE", 0x19, 1),
    ("BBS_MESSAGE_TYPE", 0x20, 1),
    ("BULLETIN_ID_NUMBER", 0x21, 1),
    ("TITLE", 0x22, 1),
    ("KEYWORDS", 0x23, 1),
    ("FILE_DESCRIPTION", 0x24, 1),
    ("COMPRESSION_DESCRIPTION", 0x25, 1),
    ("USER_FILE_NAME", 0x26, 1),
];

/// The operators, each at the place that is its code in bits 6 to 4.
pub const OPERATORS: [&str; 6] = ["==", ">", "<", "!=", ">=", "<="];

/// Whether some name begins so, in letters of either case.
pub fn begins_a_name(front: &[u8]) -> bool {
    NAMES.iter().any(|(name, _, _)| {
        let name = name.as_bytes();
        front.len() <= name.len() && name[..front.len()].eq_ignore_ascii_case(front)
    })
}

/// The id of a whole name, in letters of either case.
pub fn id_of(word: &[u8]) -> Option<u16> {
    let mut names = NAMES.iter();
    names
        .find(|(name, _, _)| name.as_bytes().eq_ignore_ascii_case(word))
        .map(|&(_, id, _)| id)
}

/// The name of an id, if it has one.
pub fn name_of(id: u16) -> Option<&'static str> {
    let mut names = NAMES.iter();
    names
        .find(|(_, named, _)| *named == id)
        .map(|&(name, _, _)| name)
}

/// The usual width of an id's numbers.
fn usual_width(id: u16) -> usize {
    let mut names = NAMES.iter();
    names
        .find(|(_, named, _)| *named == id)
        .map_or(1, |&(_, _, width)| width)
}

/// The least of 1, 2, 4 that holds the value.
pub fn least_width(value: u32) -> usize {
    match value {
        0..=0xff => 1,
        0x100..=0xffff => 2,
        _ => 4,
    }
}

/// The width that is taken where a number is written without one.
pub fn taken_width(id: u16, value: u32) -> usize {
    usual_width(id).max(least_width(value))
}
