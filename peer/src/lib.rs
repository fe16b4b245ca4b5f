//! The server side of PACSAT File Transfer Level 0, version 0, written for speed: a peer that the proved server is measured against. It gives the same
//! answers as the second program (`reference/`), which is written for clarity; tests/same.rs compares them.
//!
//! The state is one struct that nobody else can change, so no call tests it. Nothing is allocated in a call. Information is read where the caller's bytes
//! or the store's blocks have it, and packets are written straight into the lent output.

mod equation;
mod header;
mod link;
mod packet;
mod refusal;
mod store;

use link::{Heard, Link, Reply, Uplink, MAXSEL};
use packet::{Frame, Framed};
use refusal::{BAD_SESSION, OUT_OF_TABLE, SHORT_OUTPUT};
use store::Store;

pub use packet::OUTPUT;

/// The login flags: headers required, no saved selection, version 0.
const LOGIN_FLAGS: u8 = 4;

/// The sizes of a server.
#[derive(Clone, Copy, Debug)]
pub struct Sizes {
    pub blocks: usize,
    pub files: usize,
    pub sessions: usize,
    pub maxsel: usize,
}

/// What a call answers.
#[derive(Clone, Copy, Debug, PartialEq, Eq)]
pub enum Answer {
    /// A local refusal: nothing is taken, written or changed.
    Refused(u8),
    /// The link was closed after so many bytes.
    Closed(usize),
    /// So many bytes were taken and nothing is sent.
    Quiet(usize),
    /// So many bytes were taken, and a packet of so many bytes is in the output.
    Sent(usize, usize),
}

struct Session {
    frame: Frame,
    link: Link,
}

pub struct Server {
    maxsel: usize,
    store: Store,
    /// A closed session is nothing at all.
    sessions: Vec<Option<Session>>,
}

impl Server {
    /// An empty store and no session open.
    pub fn new(sizes: Sizes) -> Result<Server, u8> {
        let in_the_table = (1..=4096).contains(&sizes.blocks)
            && (1..=256).contains(&sizes.files)
            && (1..=4).contains(&sizes.sessions)
            && (1..=MAXSEL).contains(&sizes.maxsel);
        if !in_the_table {
            return Err(OUT_OF_TABLE);
        }
        Ok(Server {
            maxsel: sizes.maxsel,
            store: Store::new(sizes.blocks, sizes.files),
            sessions: (0..sizes.sessions).map(|_| None).collect(),
        })
    }

    /// A link was made: the session opens and LOGIN_RESP goes out.
    pub fn open(&mut self, session: usize, clock: u32, output: &mut [u8]) -> Answer {
        match self.sessions.get_mut(session.wrapping_sub(1)) {
            Some(None) if output.len() < OUTPUT => Answer::Refused(SHORT_OUTPUT),
            Some(closed @ None) => {
                let (frame, link) = (Frame::new(), Link::new());
                *closed = Some(Session { frame, link });
                let [a, b, c, d] = clock.to_le_bytes();
                let information = [a, b, c, d, LOGIN_FLAGS];
                Answer::Sent(0, packet::write(output, packet::LOGIN_RESP, &information))
            }
            _ => Answer::Refused(BAD_SESSION),
        }
    }

    /// Takes bytes of a link up to the end of one packet, or all it was lent.
    pub fn receive(
        &mut self,
        session: usize,
        clock: u32,
        bytes: &[u8],
        output: &mut [u8],
    ) -> Answer {
        let Session { frame, link } = match opened(&mut self.sessions, session, output) {
            Ok(session) => session,
            Err(refusal) => return Answer::Refused(refusal),
        };
        let (taken, framed) = frame.feed(bytes);
        let (kind, information) = match framed {
            Framed::Open => return Answer::Quiet(taken),
            Framed::TooLong => {
                self.lose(session);
                return Answer::Closed(taken);
            }
            Framed::Whole { kind, information } => (kind, information),
        };
        let store = &mut self.store;
        let mut heard = Heard {
            link,
            store,
            information,
            output,
        };
        let reply = match kind {
            packet::DATA => heard.data(),
            packet::DATA_END => heard.data_end(clock),
            packet::UPLOAD_CMD => heard.upload(),
            packet::SELECT_CMD => heard.select(self.maxsel),
            packet::DOWNLOAD_CMD => heard.download(),
            packet::DIR_SHORT_CMD => heard.directory(false),
            packet::DIR_LONG_CMD => heard.directory(true),
            packet::DL_ACK_CMD => heard.ack(),
            packet::DL_NAK_CMD => heard.nak(),
            _ => Reply::Close,
        };
        match reply {
            Reply::Quiet => Answer::Quiet(taken),
            Reply::Send(length) => Answer::Sent(taken, length),
            Reply::Close => {
                self.lose(session);
                Answer::Closed(taken)
            }
        }
    }

    /// Asks for the next packet of a download or directory, if one is due.
    pub fn request(&mut self, session: usize, output: &mut [u8]) -> Answer {
        match opened(&mut self.sessions, session, output) {
            Ok(session) => match session.link.due(&self.store, output) {
                Some(length) => Answer::Sent(0, length),
                None => Answer::Quiet(0),
            },
            Err(refusal) => Answer::Refused(refusal),
        }
    }

    /// The link was lost. What was stored by whole DATA packets stays.
    pub fn lose(&mut self, session: usize) -> Answer {
        let lost = self.sessions.get_mut(session.wrapping_sub(1));
        match lost.and_then(Option::take) {
            Some(lost) => {
                if let Uplink::Receiving { place } = lost.link.uplink {
                    self.store.files[place].uploading = false;
                }
                Answer::Quiet(0)
            }
            None => Answer::Refused(BAD_SESSION),
        }
    }

    pub fn free_blocks(&self) -> usize {
        self.store.free
    }

    // ---- what tests and measurements set; no packet does

    /// The last file number and upload time given.
    pub fn set_last(&mut self, number: u32, time: u32) {
        self.store.last_number = number;
        self.store.last_time = time;
    }

    /// Forgets the bytes received of the partial at a place.
    pub fn rewind(&mut self, place: usize) {
        self.store.clear(place);
    }

    /// Sets the place in an open session's selection back to its first file.
    pub fn reselect(&mut self, session: usize) {
        if let Some(session) = &mut self.sessions[session - 1] {
            session.link.selection.taken = 0;
        }
    }
}

/// An open session, or the local refusal of a call on it.
fn opened<'a>(
    sessions: &'a mut [Option<Session>],
    session: usize,
    output: &[u8],
) -> Result<&'a mut Session, u8> {
    match sessions.get_mut(session.wrapping_sub(1)) {
        Some(Some(_)) if output.len() < OUTPUT => Err(SHORT_OUTPUT),
        Some(Some(session)) => Ok(session),
        _ => Err(BAD_SESSION),
    }
}
