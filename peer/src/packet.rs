//! Packets: the numbers of the types, the framing of a link's bytes, and the writing into the lent output.

/// The bytes before the information.
pub const HEAD: usize = 2;
/// The most information bytes of a packet.
pub const MOST: usize = 256;
/// The least room that a lent output must have.
pub const OUTPUT: usize = HEAD + MOST;

pub const DATA: u8 = 0;
pub const DATA_END: u8 = 1;
pub const LOGIN_RESP: u8 = 2;
pub const UPLOAD_CMD: u8 = 3;
pub const UL_GO_RESP: u8 = 4;
pub const UL_ERROR_RESP: u8 = 5;
pub const UL_ACK_RESP: u8 = 6;
pub const UL_NAK_RESP: u8 = 7;
pub const DOWNLOAD_CMD: u8 = 8;
pub const DL_ERROR_RESP: u8 = 9;
pub const DL_ABORTED_RESP: u8 = 10;
pub const DL_COMPLETED_RESP: u8 = 11;
pub const DL_ACK_CMD: u8 = 12;
pub const DL_NAK_CMD: u8 = 13;
pub const DIR_SHORT_CMD: u8 = 14;
pub const DIR_LONG_CMD: u8 = 15;
pub const SELECT_CMD: u8 = 16;
pub const SELECT_RESP: u8 = 17;

/// Puts the head before information that stands in the output already. Answers the packet's length.
pub fn seal(output: &mut [u8], kind: u8, length: usize) -> usize {
    output[0] = length as u8;
    output[1] = kind | ((length >> 8) << 5) as u8;
    HEAD + length
}

/// Writes a packet and answers its length.
pub fn write(output: &mut [u8], kind: u8, information: &[u8]) -> usize {
    output[HEAD..HEAD + information.len()].copy_from_slice(information);
    seal(output, kind, information.len())
}

/// The number of four bytes at the front of others.
pub fn number(bytes: &[u8]) -> u32 {
    u32::from_le_bytes([bytes[0], bytes[1], bytes[2], bytes[3]])
}

fn announced(first: u8, second: u8) -> usize {
    usize::from(second >> 5) << 8 | usize::from(first)
}

/// The unfinished packet of a link.
pub struct Frame {
    held: [u8; OUTPUT],
    length: usize,
}

/// What bytes of a link come to.
pub enum Framed<'a> {
    /// All bytes were taken and the packet is not at its end.
    Open,
    /// The second byte was taken and announces too much.
    TooLong,
    Whole {
        kind: u8,
        information: &'a [u8],
    },
}

impl Frame {
    pub fn new() -> Frame {
        Frame {
            held: [0; OUTPUT],
            length: 0,
        }
    }

    /// Takes bytes up to the end of one packet, or all, and says how many. A packet that comes in one piece is not copied.
    pub fn feed<'a>(&'a mut self, bytes: &'a [u8]) -> (usize, Framed<'a>) {
        if let (0, [first, second, rest @ ..]) = (self.length, bytes) {
            let length = announced(*first, *second);
            if length > MOST {
                return (HEAD, Framed::TooLong);
            }
            if let Some(information) = rest.get(..length) {
                let kind = second & 0x1f;
                return (HEAD + length, Framed::Whole { kind, information });
            }
        }
        self.hold(bytes)
    }

    fn hold(&mut self, bytes: &[u8]) -> (usize, Framed<'_>) {
        let head = self.fill(HEAD, bytes);
        if self.length < HEAD {
            return (head, Framed::Open);
        }
        let length = announced(self.held[0], self.held[1]);
        if length > MOST {
            self.length = 0;
            return (head, Framed::TooLong);
        }
        let taken = head + self.fill(HEAD + length, &bytes[head..]);
        if self.length < HEAD + length {
            return (taken, Framed::Open);
        }
        self.length = 0;
        let kind = self.held[1] & 0x1f;
        let information = &self.held[HEAD..HEAD + length];
        (taken, Framed::Whole { kind, information })
    }

    /// Holds bytes until so many are held, and says how many it took.
    fn fill(&mut self, until: usize, bytes: &[u8]) -> usize {
        let count = until.saturating_sub(self.length).min(bytes.len());
        self.held[self.length..self.length + count].copy_from_slice(&bytes[..count]);
        self.length += count;
        count
    }
}
