//! The server's state, read from the memory that the library is lent. docs/EMBEDDING.md says which part of the memory holds what; where the words
//! of a session and of a file's record stand is read from crates/embed/src/words.rt and crates/table, and is no promise of the library. So a test
//! compares what is read here with what the answers say (tools/tests/states.rs).
use bindings::server::Server;

use crate::header;
use crate::names::TITLE;

/// The words before those of the sessions.
const HEAD: usize = 6;
/// The words of a session: linked, four of the uplink, four of the downlink, bytes held, files selected, files taken.
const SESSION: usize = 12;
/// The room of an unfinished packet.
const PART: usize = 258;
/// The words of a file's record: number, announced length, bytes received, upload time (0 for a partial file).
const RECORD: usize = 4;
pub const BLOCK: usize = 256;

#[derive(Clone, Copy, Debug, PartialEq, Eq)]
pub enum Uplink {
    Idle,
    Receiving { file: u32, received: u32 },
    Ignoring,
}

#[derive(Clone, Debug, PartialEq, Eq)]
pub enum Downlink {
    Idle,
    Sending {
        file: u32,
    },
    Ended {
        file: u32,
    },
    Aborting {
        file: u32,
    },
    /// A directory: the numbers of its files, how many of them lie behind, and how many bytes of the next one's entry.
    Listing {
        long: bool,
        files: Vec<u32>,
        behind: usize,
        bytes: usize,
    },
    /// A case that is not known here.
    Other,
}

#[derive(Clone, Debug, PartialEq, Eq)]
pub struct Session {
    pub linked: bool,
    pub up: Uplink,
    pub down: Downlink,
    /// The unfinished packet.
    pub held: Vec<u8>,
    /// The numbers of the selected files, and how many of them are taken.
    pub selection: Vec<u32>,
    pub taken: usize,
}

#[derive(Clone, Debug, PartialEq, Eq)]
pub struct File {
    pub number: u32,
    pub length: u32,
    pub received: u32,
    /// 0 for a partial file.
    pub time: u32,
    pub title: Option<Vec<u8>>,
}

/// All that can be shown of a server.
#[derive(Clone, Debug, Default, PartialEq, Eq)]
pub struct State {
    pub sessions: Vec<Session>,
    /// By place; empty places are none.
    pub files: Vec<Option<File>>,
    /// For each block the number of its file, 0 for a free one.
    pub blocks: Vec<u32>,
}

fn word(server: &Server, session: usize, at: usize) -> usize {
    let place = HEAD + SESSION * (session - 1) + at;
    server.state.get(place).copied().unwrap_or(0) as usize
}

/// The number of sessions, which may be named from 1.
pub fn sessions(server: &Server) -> usize {
    server.state[2] as usize
}

/// The unfinished packet of a session from 1 on.
pub fn held(server: &Server, session: usize) -> &[u8] {
    let begin = PART * (session - 1);
    &server.held[begin..begin + word(server, session, 9)]
}

/// A word of the record of the file at a place.
fn record(server: &Server, place: usize, at: usize) -> u32 {
    server.table.get(RECORD * place + at).copied().unwrap_or(0)
}

/// The uplink: the file's number, bytes received, announced length and place.
pub fn receiving(server: &Server, session: usize) -> Option<(u32, u32, u32, usize)> {
    if word(server, session, 1) != 1 {
        return None;
    }
    let place = word(server, session, 2);
    Some((
        record(server, place, 0),
        record(server, place, 2),
        record(server, place, 1),
        place,
    ))
}

/// The session's selected files.
fn selection(server: &Server, session: usize) -> &[u32] {
    let begin = server.state[3] as usize * (session - 1);
    &server.selected[begin..begin + word(server, session, 10)]
}

pub fn downlink(server: &Server, session: usize) -> Downlink {
    let file = record(server, word(server, session, 6), 0);
    let listing = |long: bool, files: Vec<u32>| Downlink::Listing {
        long,
        files,
        behind: word(server, session, 7),
        bytes: word(server, session, 8),
    };
    match word(server, session, 5) {
        0 => Downlink::Idle,
        1 => Downlink::Sending { file },
        2 => Downlink::Ended { file },
        3 => Downlink::Aborting { file },
        case @ (4 | 5) => listing(case == 5, vec![file]),
        case @ (6 | 7) => {
            // those of the selection from one of them up to the next one
            let (first, next) = (word(server, session, 6), word(server, session, 11));
            let files = selection(server, session).get(first..next);
            listing(case == 7, files.unwrap_or_default().to_vec())
        }
        _ => Downlink::Other,
    }
}

/// The bytes that have come of the file at a place: its blocks in rising order.
pub fn contents(server: &Server, place: usize) -> Vec<u8> {
    let length = record(server, place, 2) as usize;
    let mut bytes = Vec::with_capacity(length + BLOCK);
    for (block, &owner) in server.owner.iter().enumerate() {
        if bytes.len() >= length {
            break;
        }
        if usize::from(owner) == place + 1 {
            bytes.extend(&server.disk[BLOCK * block..BLOCK * (block + 1)]);
        }
    }
    bytes.truncate(length);
    bytes
}

fn read_session(server: &Server, session: usize) -> Session {
    let up = match (word(server, session, 1), receiving(server, session)) {
        (_, Some((file, received, ..))) => Uplink::Receiving { file, received },
        (2, None) => Uplink::Ignoring,
        (_, None) => Uplink::Idle,
    };
    Session {
        linked: word(server, session, 0) == 1,
        up,
        down: downlink(server, session),
        held: held(server, session).to_vec(),
        selection: selection(server, session).to_vec(),
        taken: word(server, session, 11),
    }
}

fn read_file(server: &Server, place: usize, before: Option<&File>) -> Option<File> {
    let number = record(server, place, 0);
    if number == 0 {
        return None;
    }
    let (length, received, time) = (
        record(server, place, 1),
        record(server, place, 2),
        record(server, place, 3),
    );
    // a title that has come whole stays as it is
    let known = before.filter(|file| {
        file.number == number && (file.title.is_some() || file.received == received)
    });
    let title = match known {
        Some(file) => file.title.clone(),
        None => header::first(&contents(server, place), TITLE),
    };
    Some(File {
        number,
        length,
        received,
        time,
        title,
    })
}

/// The state of a server; the one before it saves the reading of titles.
pub fn read(server: &Server, before: &State) -> State {
    let places = server.state[1] as usize;
    let files: Vec<Option<File>> = (0..places)
        .map(|place| {
            read_file(
                server,
                place,
                before.files.get(place).and_then(Option::as_ref),
            )
        })
        .collect();
    let owned = server.owner.iter().enumerate().map(|(block, &owner)| {
        let free = server.map[block / 64] >> (block % 64) & 1 == 1;
        match owner {
            _ if free => 0,
            0 => 0,
            owner => record(server, usize::from(owner) - 1, 0),
        }
    });
    State {
        sessions: (1..=sessions(server))
            .map(|session| read_session(server, session))
            .collect(),
        files,
        blocks: owned.collect(),
    }
}
