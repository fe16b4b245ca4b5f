//! The second program's state as it must stand in the memory that is lent to the proved server.
use crate::proved::Proved;
use reference::server::{Directory, Downlink, Listed, Server, Session, Uplink};
use reference::store::Store;

/// The words before those of the sessions.
pub const HEAD: usize = 6;
/// The words of a session: linked, four of the uplink, four of the downlink, bytes held, files selected, files taken.
pub const SESSION: usize = 12;
/// The bytes that a session's unfinished packet has room in.
pub const PART: usize = 258;

fn uplink(state: Uplink) -> [u64; 4] {
    match state {
        Uplink::Idle => [0; 4],
        Uplink::Receiving {
            place,
            offset,
            received,
        } => [1, place as u64, offset.into(), received.into()],
        Uplink::Ignoring => [2, 0, 0, 0],
    }
}

/// How many entries lie behind after so many bytes of all of them together, and how many bytes of the next one: an entry whose last byte is
/// sent lies behind.
fn progress(entries: &[Vec<u8>], sent: usize) -> (usize, usize) {
    let mut left = sent;
    for (behind, entry) in entries.iter().enumerate() {
        if left == 0 || left < entry.len() {
            return (behind, left);
        }
        left -= entry.len();
    }
    (entries.len(), 0)
}

/// The entries of a directory, each by itself.
pub fn entries(server: &Server, session: &Session, directory: Directory) -> Vec<Vec<u8>> {
    let places = server.listed_places(session, directory.listed).into_iter();
    let one = |place| Directory {
        listed: Listed::One { place },
        ..directory
    };
    places
        .map(|place| server.entries(session, one(place)))
        .collect()
}

/// The form and what is listed, the place or the first one of the selection, the entries behind, the bytes of the next one. The files of the
/// selection end at the session's place in it.
fn listing(server: &Server, session: &Session, directory: Directory, sent: u32) -> [u64; 4] {
    let (case, which) = match directory.listed {
        Listed::One { place } => (4, place),
        Listed::Selected { first, .. } => (6, first),
    };
    let (done, sent) = progress(&entries(server, session, directory), sent as usize);
    [
        case + u64::from(directory.long),
        which as u64,
        done as u64,
        sent as u64,
    ]
}

fn downlink(server: &Server, session: &Session) -> [u64; 4] {
    match session.downlink {
        Downlink::Idle => [0; 4],
        Downlink::Sending {
            place,
            offset,
            sent,
        } => [1, place as u64, offset.into(), sent.into()],
        Downlink::Ended { place } => [2, place as u64, 0, 0],
        Downlink::Aborting { place } => [3, place as u64, 0, 0],
        Downlink::Listing { directory, sent } => listing(server, session, directory, sent),
    }
}

/// The words of a session, counted from 0.
pub fn session_words(server: &Server, index: usize) -> [u64; SESSION] {
    let mut words = [0; SESSION];
    if let Some(Some(session)) = server.sessions.get(index) {
        words[0] = 1;
        words[1..5].copy_from_slice(&uplink(session.uplink));
        words[5..9].copy_from_slice(&downlink(server, session));
        words[9] = session.frame.held().len() as u64;
        words[10] = session.selection.numbers.len() as u64;
        words[11] = session.selection.position as u64;
    }
    words
}

fn state(server: &Server) -> Vec<u64> {
    let sizes = server.sizes;
    let mut words = [sizes.blocks, sizes.files, sizes.sessions, sizes.maxsel]
        .map(|size| size as u64)
        .to_vec();
    words.push(server.store.last_number.into());
    words.push(server.store.last_time.into());
    for index in 0..4 {
        words.extend(session_words(server, index));
    }
    words
}

fn map(store: &Store) -> Vec<u64> {
    let word = |blocks: &[bool]| {
        let bits = blocks.iter().enumerate();
        bits.map(|(bit, &free)| u64::from(free) << bit).sum()
    };
    store.free.chunks(64).map(word).collect()
}

fn owner(store: &Store) -> Vec<u16> {
    let mut owner = vec![0; store.free.len()];
    for (place, file) in store.places.iter().enumerate() {
        for &block in file.iter().flat_map(|file| &file.blocks) {
            owner[block] = place as u16 + 1;
        }
    }
    owner
}

fn table(store: &Store) -> Vec<u32> {
    let record = |place: &Option<_>| match place {
        None => [0; 4],
        Some(reference::store::File {
            number,
            length,
            received,
            upload_time,
            ..
        }) => [*number, *length, *received, upload_time.unwrap_or(0)],
    };
    store.places.iter().flat_map(record).collect()
}

/// The unfinished packets, 258 bytes a session, zeros behind the bytes held.
fn held(server: &Server) -> Vec<u8> {
    let mut bytes = vec![0; PART * server.sessions.len()];
    for (part, session) in bytes.chunks_mut(PART).zip(&server.sessions) {
        if let Some(session) = session {
            part[..session.frame.held().len()].copy_from_slice(session.frame.held());
        }
    }
    bytes
}

/// The slice begins so.
fn begins<T: PartialEq>(what: &str, lent: &[T], want: &[T]) -> Result<(), String> {
    match lent.starts_with(want) {
        true => Ok(()),
        false => Err(format!(
            "{what}: the proved server's memory is not the second program's"
        )),
    }
}

/// A closed session has no selection left; behind the numbers of an open one anything may stand.
fn selected(proved: &Proved, server: &Server) -> Result<(), String> {
    let parts = proved.selected.chunks(server.sizes.maxsel);
    for (part, session) in parts.zip(&server.sessions) {
        match session {
            Some(session) => begins("selection", part, &session.selection.numbers)?,
            None => begins("selection", part, &vec![0; server.sizes.maxsel])?,
        }
    }
    Ok(())
}

/// All but the bytes of the files.
pub fn same_words(proved: &Proved, server: &Server) -> Result<(), String> {
    begins("state", &proved.state, &state(server))?;
    begins("map", &proved.map, &map(&server.store))?;
    begins("owner", &proved.owner, &owner(&server.store))?;
    begins("table", &proved.table, &table(&server.store))?;
    begins("held", &proved.held, &held(server))?;
    selected(proved, server)
}

/// The bytes of all blocks, free ones too: neither program clears a block.
pub fn same_bytes(proved: &Proved, server: &Server) -> Result<(), String> {
    begins("disk", &proved.disk, &server.store.disk)
}
