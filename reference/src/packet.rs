//! Packets: their types and names, numbers of several bytes, the plain writer
//! and reader, and the framing of the bytes of one link.
//!
//! A packet is the low 8 bits of the information's length, then a byte with
//! the type in bits 0 to 4 and the length's three high bits in bits 5 to 7,
//! then the information.

use crate::refusal::{OUT_OF_TABLE, SHORT_OUTPUT};

/// The most information bytes that a packet can announce.
pub const PLAIN_MOST: usize = 2047;
/// The most information bytes that the server accepts.
pub const SERVER_MOST: usize = 256;
/// The bytes before the information.
pub const HEAD: usize = 2;

#[derive(Clone, Copy, Debug, PartialEq, Eq, PartialOrd, Ord)]
pub enum Type {
    Data,
    DataEnd,
    LoginResp,
    UploadCmd,
    UlGoResp,
    UlErrorResp,
    UlAckResp,
    UlNakResp,
    DownloadCmd,
    DlErrorResp,
    DlAbortedResp,
    DlCompletedResp,
    DlAckCmd,
    DlNakCmd,
    DirShortCmd,
    DirLongCmd,
    SelectCmd,
    SelectResp,
}

impl Type {
    /// All types, each at the place that is its number.
    pub const ALL: [Type; 18] = [
        Type::Data,
        Type::DataEnd,
        Type::LoginResp,
        Type::UploadCmd,
        Type::UlGoResp,
        Type::UlErrorResp,
        Type::UlAckResp,
        Type::UlNakResp,
        Type::DownloadCmd,
        Type::DlErrorResp,
        Type::DlAbortedResp,
        Type::DlCompletedResp,
        Type::DlAckCmd,
        Type::DlNakCmd,
        Type::DirShortCmd,
        Type::DirLongCmd,
        Type::SelectCmd,
        Type::SelectResp,
    ];

    /// The type with that number; 18 to 31 have none.
    pub fn of(number: u8) -> Option<Type> {
        Type::ALL.get(usize::from(number)).copied()
    }

    pub fn number(self) -> u8 {
        self as u8
    }

    pub fn name(self) -> &'static str {
        match self {
            Type::Data => "DATA",
            Type::DataEnd => "DATA_END",
            Type::LoginResp => "LOGIN_RESP",
            Type::UploadCmd => "UPLOAD_CMD",
            Type::UlGoResp => "UL_GO_RESP",
            Type::UlErrorResp => "UL_ERROR_RESP",
            Type::UlAckResp => "UL_ACK_RESP",
            Type::UlNakResp => "UL_NAK_RESP",
            Type::DownloadCmd => "DOWNLOAD_CMD",
            Type::DlErrorResp => "DL_ERROR_RESP",
            Type::DlAbortedResp => "DL_ABORTED_RESP",
            Type::DlCompletedResp => "DL_COMPLETED_RESP",
            Type::DlAckCmd => "DL_ACK_CMD",
            Type::DlNakCmd => "DL_NAK_CMD",
            Type::DirShortCmd => "DIR_SHORT_CMD",
            Type::DirLongCmd => "DIR_LONG_CMD",
            Type::SelectCmd => "SELECT_CMD",
            Type::SelectResp => "SELECT_RESP",
        }
    }
}

/// The number that up to four bytes stand for, least significant first.
pub fn number(bytes: &[u8]) -> u32 {
    assert!(bytes.len() <= 4, "a number has at most four bytes");
    bytes
        .iter()
        .rev()
        .fold(0, |value, &byte| value << 8 | u32::from(byte))
}

/// A packet of one of the eighteen types.
#[derive(Clone, Debug, PartialEq, Eq)]
pub struct Packet {
    pub kind: Type,
    pub information: Vec<u8>,
}

impl Packet {
    pub fn new(kind: Type, information: &[u8]) -> Packet {
        Packet {
            kind,
            information: information.to_vec(),
        }
    }

    /// The packet as it goes over the link; its information is at most 2,047 bytes.
    pub fn bytes(&self) -> Vec<u8> {
        let mut output = vec![0; HEAD + self.information.len()];
        let written = write(self.kind.number(), &self.information, &mut output);
        assert_eq!(written, Ok(output.len()), "a packet too long to be written");
        output
    }
}

/// What the two bytes before the information announce.
#[derive(Clone, Copy, Debug, PartialEq, Eq)]
pub struct Announced {
    /// The type's number, 0 to 31.
    pub kind: u8,
    /// The information's length, 0 to 2,047.
    pub length: usize,
}

pub fn announced(first: u8, second: u8) -> Announced {
    Announced {
        kind: second & 0x1f,
        length: usize::from(second >> 5) << 8 | usize::from(first),
    }
}

/// The plain writer. It says how many bytes it wrote; a refusal writes nothing.
pub fn write(kind: u8, information: &[u8], output: &mut [u8]) -> Result<usize, u8> {
    let length = information.len();
    if length > PLAIN_MOST || Type::of(kind).is_none() {
        return Err(OUT_OF_TABLE);
    }
    if output.len() < HEAD + length {
        return Err(SHORT_OUTPUT);
    }
    output[0] = (length & 0xff) as u8;
    output[1] = kind | ((length >> 8) << 5) as u8;
    output[HEAD..HEAD + length].copy_from_slice(information);
    Ok(HEAD + length)
}

/// The plain reader: the packet at the front of the bytes and how many bytes
/// it is. Bytes after it are not looked at.
pub fn read(bytes: &[u8]) -> Result<(Packet, usize), u8> {
    let (first, second, rest) = match bytes {
        [first, second, rest @ ..] => (first, second, rest),
        _ => return Err(OUT_OF_TABLE),
    };
    let Announced { kind, length } = announced(*first, *second);
    let kind = Type::of(kind).ok_or(OUT_OF_TABLE)?;
    let information = rest.get(..length).ok_or(OUT_OF_TABLE)?;
    Ok((Packet::new(kind, information), HEAD + length))
}

/// The bytes of one link since the last packet's end. Nothing is left in it at
/// a packet's end, so links that took the same bytes hold the same.
#[derive(Clone, Debug, Default, PartialEq, Eq)]
pub struct Frame {
    held: Vec<u8>,
}

/// How a feed of bytes ended.
#[derive(Clone, Debug, PartialEq, Eq)]
pub enum Framed {
    /// All bytes were taken and the packet is not at its end.
    Open,
    /// The packet's last byte was taken. The type may be any of 0 to 31.
    Whole { kind: u8, information: Vec<u8> },
    /// The second byte was taken and announces more than 256 information bytes.
    TooLong,
}

impl Frame {
    pub fn new() -> Frame {
        Frame::default()
    }

    /// A link that holds these bytes, which may be no unfinished packet.
    pub fn holding(bytes: &[u8]) -> Frame {
        Frame {
            held: bytes.to_vec(),
        }
    }

    /// The bytes of the unfinished packet.
    pub fn held(&self) -> &[u8] {
        &self.held
    }

    /// Takes bytes up to the end of one packet, or all, and says how many.
    pub fn feed(&mut self, bytes: &[u8]) -> (usize, Framed) {
        for (index, &byte) in bytes.iter().enumerate() {
            self.held.push(byte);
            let end = self.end();
            if end != Framed::Open {
                self.held.clear();
                return (index + 1, end);
            }
        }
        (bytes.len(), Framed::Open)
    }

    /// What the bytes held so far amount to.
    fn end(&self) -> Framed {
        let (first, second, information) = match self.held.as_slice() {
            [first, second, information @ ..] => (first, second, information),
            _ => return Framed::Open,
        };
        let Announced { kind, length } = announced(*first, *second);
        if length > SERVER_MOST {
            return Framed::TooLong;
        }
        if information.len() < length {
            return Framed::Open;
        }
        Framed::Whole {
            kind,
            information: information.to_vec(),
        }
    }
}
