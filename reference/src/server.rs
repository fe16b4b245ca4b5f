//! The server: sessions over one store, and the four calls that a driver makes
//! (open, receive, request, lose).

mod directory;

use crate::equation::Equation;
use crate::header;
use crate::packet::{number, write, Frame, Framed, Packet, Type, HEAD, SERVER_MOST};
use crate::refusal::{
    BAD_CONTINUE, BAD_SESSION, BODY_CHECK, FILE_COMPLETE, ILL_FORMED_COMMAND, NO_SUCH_DESTINATION,
    NO_SUCH_FILE, OUT_OF_TABLE, PARTIAL_FILE, SELECTION_EMPTY, SHORT_OUTPUT,
};
use crate::store::Store;

pub use directory::ENTRIES;

/// The least room that a lent output must have.
pub const OUTPUT: usize = HEAD + SERVER_MOST;
/// The login flags: headers required, no saved selection, version 0.
const LOGIN_FLAGS: u8 = 4;

/// The sizes of a server, fixed when it is made.
#[derive(Clone, Copy, Debug, PartialEq, Eq)]
pub struct Sizes {
    pub blocks: usize,
    pub files: usize,
    pub sessions: usize,
    /// The most files of one selection.
    pub maxsel: usize,
}

impl Sizes {
    /// Those of the script program.
    pub const PROGRAM: Sizes = Sizes {
        blocks: 128,
        files: 32,
        sessions: 4,
        maxsel: 50,
    };

    pub(crate) fn are_in_the_table(&self) -> bool {
        (1..=4096).contains(&self.blocks)
            && (1..=256).contains(&self.files)
            && (1..=4).contains(&self.sessions)
            && (1..=50).contains(&self.maxsel)
    }
}

#[derive(Clone, Copy, Debug, PartialEq, Eq)]
pub enum Uplink {
    Idle,
    /// A file is coming in: where this link began, and the bytes since then.
    Receiving {
        place: usize,
        offset: u32,
        received: u32,
    },
    /// The upload was refused before its DATA_END.
    Ignoring,
}

#[derive(Clone, Copy, Debug, PartialEq, Eq)]
pub enum Downlink {
    Idle,
    /// A file is going out: where the download began, and the bytes since then.
    Sending {
        place: usize,
        offset: u32,
        sent: u32,
    },
    /// DATA_END went out; the client's word is awaited.
    Ended {
        place: usize,
    },
    /// DATA_END went out early; DL_ABORTED_RESP is due.
    Aborting {
        place: usize,
    },
    /// A directory is going out: the bytes sent of all its entries together.
    Listing {
        directory: Directory,
        sent: u32,
    },
}

/// What a directory sends.
#[derive(Clone, Copy, Debug, PartialEq, Eq)]
pub struct Directory {
    /// Whole headers rather than their mandatory items.
    pub long: bool,
    pub listed: Listed,
}

/// The files of a directory.
#[derive(Clone, Copy, Debug, PartialEq, Eq)]
pub enum Listed {
    One {
        place: usize,
    },
    /// Those of the selection from one index up to, not including, another.
    /// The selection stays as it is while they are sent.
    Selected {
        first: usize,
        end: usize,
    },
}

/// Selected files by number, and how many of them were taken.
#[derive(Clone, Debug, Default, PartialEq, Eq)]
pub struct Selection {
    pub numbers: Vec<u32>,
    pub position: usize,
}

impl Selection {
    fn next(&self) -> Option<u32> {
        self.numbers.get(self.position).copied()
    }
}

#[derive(Clone, Debug, PartialEq, Eq)]
pub struct Session {
    pub uplink: Uplink,
    pub downlink: Downlink,
    pub selection: Selection,
    pub frame: Frame,
}

impl Session {
    fn new() -> Session {
        Session {
            uplink: Uplink::Idle,
            downlink: Downlink::Idle,
            selection: Selection::default(),
            frame: Frame::new(),
        }
    }
}

/// What a call answers.
#[derive(Clone, Debug, PartialEq, Eq)]
pub enum Answer {
    /// A local refusal: nothing is taken, written or changed.
    Refused(u8),
    /// The link was closed after so many bytes.
    Closed(usize),
    /// So many bytes were taken and nothing is sent.
    Quiet(usize),
    /// So many bytes were taken and the packet is in the lent output.
    Sent(usize, Packet),
}

/// What a whole packet leads to.
enum Reply {
    Quiet,
    Send(Packet),
    Close,
}

fn send(kind: Type, information: &[u8]) -> Reply {
    Reply::Send(Packet::new(kind, information))
}

/// Two numbers of four bytes, as UPLOAD_CMD and UL_GO_RESP have.
fn two_numbers(first: u32, second: u32) -> [u8; 8] {
    let mut bytes = [0; 8];
    bytes[..4].copy_from_slice(&first.to_le_bytes());
    bytes[4..].copy_from_slice(&second.to_le_bytes());
    bytes
}

#[derive(Clone, Debug, PartialEq, Eq)]
pub struct Server {
    pub sizes: Sizes,
    pub store: Store,
    /// A closed session is nothing at all.
    pub sessions: Vec<Option<Session>>,
}

impl Server {
    /// An empty store and no session open.
    pub fn new(sizes: Sizes) -> Result<Server, u8> {
        if !sizes.are_in_the_table() {
            return Err(OUT_OF_TABLE);
        }
        Ok(Server {
            sizes,
            store: Store::new(sizes.blocks, sizes.files),
            sessions: vec![None; sizes.sessions],
        })
    }

    /// A link was made: the session opens and LOGIN_RESP goes out.
    pub fn open(&mut self, session: u32, clock: u32, output: &mut [u8]) -> Answer {
        let index = match self.index(session) {
            Ok(index) if self.sessions[index].is_none() => index,
            _ => return Answer::Refused(BAD_SESSION),
        };
        if output.len() < OUTPUT {
            return Answer::Refused(SHORT_OUTPUT);
        }
        self.sessions[index] = Some(Session::new());
        let mut information = clock.to_le_bytes().to_vec();
        information.push(LOGIN_FLAGS);
        deliver(0, Packet::new(Type::LoginResp, &information), output)
    }

    /// Takes bytes of a link up to the end of one packet, or all it was lent.
    pub fn receive(&mut self, session: u32, clock: u32, bytes: &[u8], output: &mut [u8]) -> Answer {
        let index = match self.ready(session, output) {
            Ok(index) => index,
            Err(refusal) => return Answer::Refused(refusal),
        };
        let (took, framed) = self.session_mut(index).frame.feed(bytes);
        let reply = match framed {
            Framed::Open => Reply::Quiet,
            Framed::TooLong => Reply::Close,
            Framed::Whole { kind, information } => self.hear(index, clock, kind, &information),
        };
        match reply {
            Reply::Quiet => Answer::Quiet(took),
            Reply::Send(packet) => deliver(took, packet, output),
            Reply::Close => {
                self.sessions[index] = None;
                Answer::Closed(took)
            }
        }
    }

    /// Asks for the next packet of a download or directory, if one is due.
    pub fn request(&mut self, session: u32, output: &mut [u8]) -> Answer {
        let index = match self.ready(session, output) {
            Ok(index) => index,
            Err(refusal) => return Answer::Refused(refusal),
        };
        match self.session(index).downlink {
            Downlink::Idle | Downlink::Ended { .. } => Answer::Quiet(0),
            Downlink::Sending {
                place,
                offset,
                sent,
            } => deliver(0, self.send_on(index, place, offset, sent), output),
            Downlink::Aborting { .. } => {
                let packet = self.end_download(index, Type::DlAbortedResp);
                deliver(0, packet, output)
            }
            Downlink::Listing { directory, sent } => {
                deliver(0, self.list_on(index, directory, sent), output)
            }
        }
    }

    /// The link was lost. What was stored by whole DATA packets stays.
    pub fn lose(&mut self, session: u32) -> Answer {
        match self.open_index(session) {
            Ok(index) => {
                self.sessions[index] = None;
                Answer::Quiet(0)
            }
            Err(refusal) => Answer::Refused(refusal),
        }
    }

    fn index(&self, session: u32) -> Result<usize, u8> {
        match session as usize {
            number if (1..=self.sessions.len()).contains(&number) => Ok(number - 1),
            _ => Err(BAD_SESSION),
        }
    }

    fn open_index(&self, session: u32) -> Result<usize, u8> {
        let index = self.index(session)?;
        match self.sessions[index] {
            Some(_) => Ok(index),
            None => Err(BAD_SESSION),
        }
    }

    /// The local refusals of a call on an open session with a lent output.
    fn ready(&self, session: u32, output: &[u8]) -> Result<usize, u8> {
        let index = self.open_index(session)?;
        if output.len() < OUTPUT {
            return Err(SHORT_OUTPUT);
        }
        Ok(index)
    }

    fn session(&self, index: usize) -> &Session {
        self.sessions[index].as_ref().expect("an open session")
    }

    fn session_mut(&mut self, index: usize) -> &mut Session {
        self.sessions[index].as_mut().expect("an open session")
    }

    /// Acts on a whole packet.
    fn hear(&mut self, index: usize, clock: u32, kind: u8, information: &[u8]) -> Reply {
        let kind = match Type::of(kind) {
            Some(kind) => kind,
            None => return Reply::Close,
        };
        match kind {
            Type::UploadCmd => self.hear_upload(index, information),
            Type::Data => self.hear_data(index, information),
            Type::DataEnd => self.hear_data_end(index, clock, information),
            Type::SelectCmd => self.hear_select(index, information),
            Type::DownloadCmd => self.hear_download(index, information),
            Type::DirShortCmd => self.hear_directory(index, false, information),
            Type::DirLongCmd => self.hear_directory(index, true, information),
            Type::DlAckCmd => self.hear_ack(index, information),
            Type::DlNakCmd => self.hear_nak(index, information),
            Type::LoginResp
            | Type::UlGoResp
            | Type::UlErrorResp
            | Type::UlAckResp
            | Type::UlNakResp
            | Type::DlErrorResp
            | Type::DlAbortedResp
            | Type::DlCompletedResp
            | Type::SelectResp => Reply::Close,
        }
    }

    // The uplink.

    fn hear_upload(&mut self, index: usize, information: &[u8]) -> Reply {
        if self.session(index).uplink != Uplink::Idle {
            return Reply::Close;
        }
        match self.upload(information) {
            Ok(place) => {
                let file = self.store.file(place);
                let (file_number, offset) = (file.number, file.received);
                self.session_mut(index).uplink = Uplink::Receiving {
                    place,
                    offset,
                    received: 0,
                };
                send(Type::UlGoResp, &two_numbers(file_number, offset))
            }
            Err(refusal) => send(Type::UlErrorResp, &[refusal]),
        }
    }

    /// The place of the file to receive, begun if it is a new one.
    fn upload(&mut self, information: &[u8]) -> Result<usize, u8> {
        if information.len() != 8 {
            return Err(ILL_FORMED_COMMAND);
        }
        let (file_number, length) = (number(&information[..4]), number(&information[4..]));
        if file_number == 0 {
            self.store.begin(length)
        } else {
            self.continued(file_number, length)
        }
    }

    fn continued(&self, file_number: u32, length: u32) -> Result<usize, u8> {
        let place = self.store.find(file_number).ok_or(NO_SUCH_FILE)?;
        let file = self.store.file(place);
        if file.is_complete() {
            return Err(FILE_COMPLETE);
        }
        if file.length != length || self.is_uploading(place) {
            return Err(BAD_CONTINUE);
        }
        Ok(place)
    }

    /// Whether some session is uploading the file at that place.
    fn is_uploading(&self, wanted: usize) -> bool {
        self.sessions.iter().flatten().any(
            |session| matches!(session.uplink, Uplink::Receiving { place, .. } if place == wanted),
        )
    }

    fn hear_data(&mut self, index: usize, information: &[u8]) -> Reply {
        match self.session(index).uplink {
            Uplink::Idle => Reply::Close,
            Uplink::Ignoring => Reply::Quiet,
            Uplink::Receiving {
                place,
                offset,
                received,
            } => {
                if !self.store.fits(place, information.len()) {
                    self.store.discard(place);
                    self.session_mut(index).uplink = Uplink::Ignoring;
                    return send(Type::UlNakResp, &[BODY_CHECK]);
                }
                self.store.append(place, information);
                self.session_mut(index).uplink = Uplink::Receiving {
                    place,
                    offset,
                    received: received + information.len() as u32,
                };
                Reply::Quiet
            }
        }
    }

    fn hear_data_end(&mut self, index: usize, clock: u32, information: &[u8]) -> Reply {
        let uplink = self.session(index).uplink;
        if uplink == Uplink::Idle || !information.is_empty() {
            return Reply::Close;
        }
        self.session_mut(index).uplink = Uplink::Idle;
        let place = match uplink {
            Uplink::Receiving { place, .. } => place,
            _ => return Reply::Quiet,
        };
        match self.store.complete(place, clock) {
            Ok(()) => send(Type::UlAckResp, &[]),
            Err(refusal) => {
                self.store.discard(place);
                send(Type::UlNakResp, &[refusal])
            }
        }
    }

    // The downlink.

    fn hear_select(&mut self, index: usize, information: &[u8]) -> Reply {
        if self.session(index).downlink != Downlink::Idle {
            return Reply::Close;
        }
        let equation = match Equation::parse(information) {
            Ok(equation) => equation,
            Err(fault) => return send(Type::DlErrorResp, &[fault.number()]),
        };
        let numbers = self.store.select(&equation, self.sizes.maxsel);
        let count = numbers.len() as u16;
        self.session_mut(index).selection = Selection {
            numbers,
            position: 0,
        };
        send(Type::SelectResp, &count.to_le_bytes())
    }

    fn hear_download(&mut self, index: usize, information: &[u8]) -> Reply {
        if self.session(index).downlink != Downlink::Idle {
            return Reply::Close;
        }
        match self.download(index, information) {
            Ok((place, offset)) => {
                let session = self.session_mut(index);
                if number(&information[..4]) == 0 {
                    session.selection.position += 1;
                }
                session.downlink = Downlink::Sending {
                    place,
                    offset,
                    sent: 0,
                };
                Reply::Quiet
            }
            Err(refusal) => send(Type::DlErrorResp, &[refusal]),
        }
    }

    /// The place and the offset that a download is to begin with.
    fn download(&self, index: usize, information: &[u8]) -> Result<(usize, u32), u8> {
        if information.len() != 9 {
            return Err(ILL_FORMED_COMMAND);
        }
        let offset = number(&information[4..8]);
        let lock_destination = usize::from(information[8]);
        let file_number = match number(&information[..4]) {
            0 => self
                .session(index)
                .selection
                .next()
                .ok_or(SELECTION_EMPTY)?,
            given => given,
        };
        let place = self.store.find(file_number).ok_or(NO_SUCH_FILE)?;
        let file = self.store.file(place);
        if !file.is_complete() {
            return Err(PARTIAL_FILE);
        }
        if offset > file.length {
            return Err(BAD_CONTINUE);
        }
        if lock_destination > self.destinations(place) {
            return Err(NO_SUCH_DESTINATION);
        }
        Ok((place, offset))
    }

    fn destinations(&self, place: usize) -> usize {
        header::destinations(&self.store.contents(place))
    }

    fn hear_ack(&mut self, index: usize, information: &[u8]) -> Reply {
        let place = match self.session(index).downlink {
            Downlink::Ended { place } => place,
            _ => return Reply::Close,
        };
        let end = match information {
            [destination] if usize::from(*destination) <= self.destinations(place) => {
                Type::DlCompletedResp
            }
            _ => Type::DlAbortedResp,
        };
        Reply::Send(self.end_download(index, end))
    }

    fn hear_nak(&mut self, index: usize, information: &[u8]) -> Reply {
        if !information.is_empty() {
            return Reply::Close;
        }
        match self.session(index).downlink {
            Downlink::Idle => Reply::Quiet,
            Downlink::Sending { place, .. } => {
                self.session_mut(index).downlink = Downlink::Aborting { place };
                send(Type::DataEnd, &[])
            }
            Downlink::Ended { .. } => Reply::Send(self.end_download(index, Type::DlAbortedResp)),
            Downlink::Aborting { .. } => Reply::Close,
            Downlink::Listing { .. } => Reply::Send(self.end_directory(index)),
        }
    }

    /// The packet that ends a download for good.
    fn end_download(&mut self, index: usize, end: Type) -> Packet {
        self.session_mut(index).downlink = Downlink::Idle;
        Packet::new(end, &[])
    }

    /// The next DATA of a download, as full as can be, or its DATA_END.
    fn send_on(&mut self, index: usize, place: usize, offset: u32, sent: u32) -> Packet {
        let from = (offset + sent) as usize;
        let to = (from + SERVER_MOST).min(self.store.file(place).length as usize);
        if from == to {
            self.session_mut(index).downlink = Downlink::Ended { place };
            return Packet::new(Type::DataEnd, &[]);
        }
        self.session_mut(index).downlink = Downlink::Sending {
            place,
            offset,
            sent: sent + (to - from) as u32,
        };
        Packet::new(Type::Data, &self.store.part(place, from, to))
    }
}

/// Writes a packet to the lent output, which has room for it.
fn deliver(took: usize, packet: Packet, output: &mut [u8]) -> Answer {
    write(packet.kind.number(), &packet.information, output).expect("room for any packet");
    Answer::Sent(took, packet)
}
