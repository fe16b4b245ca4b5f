//! Calls as values, so that a history of them can be kept, printed, shortened and made again.
use std::fmt;

#[derive(Clone, Debug, PartialEq, Eq)]
pub enum Act {
    Open,
    Receive(Vec<u8>),
    Request,
    Lose,
}

#[derive(Clone, Debug, PartialEq, Eq)]
pub struct Call {
    pub session: usize,
    pub clock: u32,
    /// The length of the output that is lent.
    pub room: usize,
    pub act: Act,
}

impl fmt::Display for Call {
    fn fmt(&self, f: &mut fmt::Formatter) -> fmt::Result {
        let Call {
            session,
            clock,
            room,
            act,
        } = self;
        match act {
            Act::Open => write!(f, "open {session}")?,
            Act::Request => write!(f, "request {session}")?,
            Act::Lose => return write!(f, "lose {session}"),
            Act::Receive(bytes) => {
                write!(f, "receive {session} ")?;
                for byte in bytes {
                    write!(f, "{byte:02x}")?;
                }
            }
        }
        write!(f, ", clock {clock}, output {room}")
    }
}
