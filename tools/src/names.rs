//! The items of a header by name, as docs/EQUATIONS.md lists them, and the types of packets.

/// A name, its id, and the usual width of its numbers in bytes.
pub struct Name {
    pub name: &'static str,
    pub id: u16,
    pub width: usize,
}

const fn name(name: &'static str, id: u16, width: usize) -> Name {
    Name { name, id, width }
}

pub const NAMES: [Name; 28] = [
    name("FILE_NUMBER", 0x01, 4),
    name("FILE_NAME", 0x02, 1),
    name("FILE_EXT", 0x03, 1),
    name("FILE_SIZE", 0x04, 4),
    name("CREATE_TIME", 0x05, 4),
    name("LAST_MODIFIED_TIME", 0x06, 4),
    name("SEU_FLAG", 0x07, 1),
    name("FILE_TYPE", 0x08, 1),
    name("BODY_CHECKSUM", 0x09, 2),
    name("HEADER_CHECKSUM", 0x0a, 2),
    name("BODY_OFFSET", 0x0b, 2),
    name("SOURCE", 0x10, 1),
    name("AX25_UPLOADER", 0x11, 1),
    name("UPLOAD_TIME", 0x12, 4),
    name("DOWNLOAD_COUNT", 0x13, 1),
    name("DESTINATION", 0x14, 1),
    name("AX25_DOWNLOADER", 0x15, 1),
    name("DOWNLOAD_TIME", 0x16, 4),
    name("EXPIRE_TIME", 0x17, 4),
    name("PRIORITY", 0x18, 1),
    name("COMPRESSION_TYPE", 0x19, 1),
    name("BBS_MESSAGE_TYPE", 0x20, 1),
    name("BULLETIN_ID_NUMBER", 0x21, 1),
    name("TITLE", 0x22, 1),
    name("KEYWORDS", 0x23, 1),
    name("FILE_DESCRIPTION", 0x24, 1),
    name("COMPRESSION_DESCRIPTION", 0x25, 1),
    name("USER_FILE_NAME", 0x26, 1),
];

pub const FILE_NAME: u16 = 0x02;
pub const FILE_EXT: u16 = 0x03;
pub const FILE_SIZE: u16 = 0x04;
pub const BODY_CHECKSUM: u16 = 0x09;
pub const HEADER_CHECKSUM: u16 = 0x0a;
pub const BODY_OFFSET: u16 = 0x0b;
pub const UPLOAD_TIME: u16 = 0x12;
pub const DESTINATION: u16 = 0x14;
pub const TITLE: u16 = 0x22;

/// The mandatory items, in the order in which they stand, with the lengths of their data.
pub const MANDATORY: [(u16, usize); 12] = [
    (0x01, 4),
    (FILE_NAME, 8),
    (FILE_EXT, 3),
    (FILE_SIZE, 4),
    (0x05, 4),
    (0x06, 4),
    (0x07, 1),
    (0x08, 1),
    (BODY_CHECKSUM, 2),
    (HEADER_CHECKSUM, 2),
    (BODY_OFFSET, 2),
    (UPLOAD_TIME, 4),
];

/// The length that a mandatory item must have.
pub fn listed_length(id: u16) -> Option<usize> {
    let found = MANDATORY.iter().find(|(listed, _)| *listed == id);
    found.map(|(_, length)| *length)
}

/// The id of a name in any case, with - or _; `to` is a destination.
pub fn id_of(word: &str) -> Option<u16> {
    let spelled = word.to_ascii_uppercase().replace('-', "_");
    if spelled == "TO" {
        return Some(DESTINATION);
    }
    NAMES.iter().find(|n| n.name == spelled).map(|n| n.id)
}

/// The name of an id in small letters, or # and four hex digits.
pub fn name_of(id: u16) -> String {
    match NAMES.iter().find(|n| n.id == id) {
        Some(n) => n.name.to_ascii_lowercase(),
        None => format!("#{id:04x}"),
    }
}

/// The usual width of an item's number.
pub fn width_of(id: u16) -> usize {
    NAMES.iter().find(|n| n.id == id).map_or(1, |n| n.width)
}

/// The packets by their types.
pub const PACKETS: [&str; 18] = [
    "DATA",
    "DATA_END",
    "LOGIN_RESP",
    "UPLOAD_CMD",
    "UL_GO_RESP",
    "UL_ERROR_RESP",
    "UL_ACK_RESP",
    "UL_NAK_RESP",
    "DOWNLOAD_CMD",
    "DL_ERROR_RESP",
    "DL_ABORTED_RESP",
    "DL_COMPLETED_RESP",
    "DL_ACK_CMD",
    "DL_NAK_CMD",
    "DIR_SHORT_CMD",
    "DIR_LONG_CMD",
    "SELECT_CMD",
    "SELECT_RESP",
];

/// A packet's name, or `type 18` for a type without one.
pub fn packet_name(kind: u8) -> String {
    match PACKETS.get(usize::from(kind)) {
        Some(name) => name.to_string(),
        None => format!("type {kind}"),
    }
}
