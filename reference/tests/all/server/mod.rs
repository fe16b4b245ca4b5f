//! The server by its calls: each rule, each refusal, each closing.

mod bytes;
mod calls;
mod completion;
mod directories;
mod downloads;
mod expected;
mod selections;
mod uploads;

use crate::common::{data, directory, download, nak, to_hex, upload, Desk};
use reference::draft::Draft;
use reference::packet::Type;

pub fn f80() -> Vec<u8> {
    Draft::new().bytes()
}

/// A sound file of that length, 80 or more.
pub fn file_of(length: usize) -> Vec<u8> {
    let body: Vec<u8> = (0..length - 80).map(|index| index as u8).collect();
    Draft::new().with_body(&body).bytes()
}

pub fn go(number: u32, offset: u32) -> String {
    let bytes = [number.to_le_bytes(), offset.to_le_bytes()].concat();
    format!("UL_GO_RESP {}", to_hex(&bytes))
}

pub fn data_line(bytes: &[u8]) -> String {
    format!("DATA {}", to_hex(bytes))
}

pub const ACKNOWLEDGED: &str = "UL_ACK_RESP ";
pub const COMPLETED: &str = "DL_COMPLETED_RESP ";
pub const ABORTED: &str = "DL_ABORTED_RESP ";
pub const END: &str = "DATA_END ";
pub const NOTHING: [String; 0] = [];

#[derive(Clone, Copy, Debug, PartialEq)]
pub enum Up {
    Idle,
    Receiving,
    Ignoring,
}

#[derive(Clone, Copy, Debug, PartialEq)]
pub enum Down {
    Idle,
    Sending,
    Ended,
    Aborting,
    Listing,
}

/// A server whose session 1 is in these states, with file 1 complete.
pub fn in_states(up: Up, down: Down) -> Desk {
    let mut desk = Desk::opened();
    desk.store(1, &f80());
    match up {
        Up::Idle => {}
        Up::Receiving => {
            desk.hear(1, &upload(80));
        }
        Up::Ignoring => {
            desk.hear(1, &upload(0));
            assert_eq!(desk.hear(1, &data(&[1])), ["UL_NAK_RESP 10"]);
        }
    }
    if down == Down::Listing {
        assert_eq!(desk.hear(1, &directory(Type::DirLongCmd, 1)), NOTHING);
    } else if down != Down::Idle {
        assert_eq!(desk.hear(1, &download(1, 0, 0)), NOTHING);
    }
    match down {
        Down::Idle | Down::Sending | Down::Listing => {}
        Down::Ended => assert_eq!(desk.pump(1).len(), 2),
        Down::Aborting => assert_eq!(desk.hear(1, &nak()), [END]),
    }
    desk
}
