//! What scripts reach of directories.

use crate::header;
use crate::packet::{number, Framed, Type, SERVER_MOST};
use crate::server::{Answer, Directory, Downlink, Listed, Server, Session, Uplink, ENTRIES};

/// What a session took last by number 0 from its selection.
#[derive(Clone, Copy, Debug, Default, PartialEq)]
pub(super) enum Taker {
    #[default]
    Nothing,
    Download,
    Directory,
}

const COMMANDS: [Type; 2] = [Type::DirShortCmd, Type::DirLongCmd];

/// The grounds of refusals, with their numbers.
const GROUNDS: [(u8, &str); 6] = [
    (1, " not 4 bytes"),
    (4, ""),
    (4, " ffffffff"),
    (5, " without a selection"),
    (5, " behind the last"),
    (11, ""),
];

/// What either form reaches.
const EACH: [&str; 8] = [
    "of one file",
    "of the last selected files",
    "of ten, more being left",
    "within one DATA",
    "over several DATA",
    "a DATA with parts of two headers",
    "beside an upload",
    "of a file with more than the mandatory items",
];

const LONG: [&str; 4] = [
    "a header of more than a block",
    "a header of more than ten blocks",
    "its last DATA is full",
    "of one file, a header of 80 bytes",
];

const TURNS: [&str; 7] = [
    "directory, of number 0 behind a download",
    "directory, of number 0 behind a directory",
    "download, of number 0 behind a directory",
    "directory, DL_NAK_CMD before its DATA_END",
    "directory, DL_NAK_CMD behind its DATA_END",
    "directory, an upload's packet while it is sent",
    "directory, closed while it is sent",
];

pub(super) fn is_directory(kind: Option<Type>) -> bool {
    matches!(kind, Some(kind) if COMMANDS.contains(&kind))
}

pub(super) fn rows() -> Vec<String> {
    let mut rows: Vec<String> = TURNS.iter().map(|row| row.to_string()).collect();
    for kind in COMMANDS {
        let name = kind.name();
        for (refusal, ground) in GROUNDS {
            rows.push(format!("DL_ERROR_RESP {refusal}, {name}{ground}"));
        }
        for row in EACH {
            rows.push(format!("directory, {name}, {row}"));
        }
    }
    for row in LONG {
        rows.push(format!("directory, DIR_LONG_CMD, {row}"));
    }
    rows
}

/// The ground of a refusal, should one be given.
pub(super) fn ground(session: &Session, kind: Type, information: &[u8]) -> String {
    let ground = match information.len() {
        4 if number(information) == 0 && session.selection.numbers.is_empty() => {
            " without a selection"
        }
        4 if number(information) == 0 => " behind the last",
        4 if number(information) == u32::MAX => " ffffffff",
        4 => "",
        _ => " not 4 bytes",
    };
    format!("{}{ground}", kind.name())
}

/// The rows that are reached, should the directory be accepted.
pub(super) fn accepted_rows(server: &Server, session: &Session, framed: &Framed) -> Vec<String> {
    let (kind, information) = match framed {
        Framed::Whole { kind, information } => (Type::of(*kind), information),
        _ => return Vec::new(),
    };
    let kind = match kind {
        Some(kind) if COMMANDS.contains(&kind) && information.len() == 4 => kind,
        _ => return Vec::new(),
    };
    let (first, count) = (session.selection.position, session.selection.numbers.len());
    let listed = match number(information) {
        0 => Listed::Selected {
            first,
            end: count.min(first + ENTRIES),
        },
        given => match server.store.find(given) {
            Some(place) => Listed::One { place },
            None => return Vec::new(),
        },
    };
    let directory = Directory {
        long: kind == Type::DirLongCmd,
        listed,
    };
    let mut rows = Vec::new();
    note_files(server, session, directory, &mut rows);
    if matches!(session.uplink, Uplink::Receiving { .. }) {
        rows.push(EACH[6]);
    }
    let name = kind.name();
    let row = |row: &str| format!("directory, {name}, {row}");
    rows.into_iter().map(row).collect()
}

/// Notes the rows on the files and their entries.
fn note_files(
    server: &Server,
    session: &Session,
    directory: Directory,
    rows: &mut Vec<&'static str>,
) {
    rows.push(match directory.listed {
        Listed::One { .. } => EACH[0],
        Listed::Selected { end, .. } if end == session.selection.numbers.len() => EACH[1],
        Listed::Selected { .. } => EACH[2],
    });
    let places = server.listed_places(session, directory.listed);
    let mut headers = Vec::new();
    let (mut all, mut runs_on) = (0, false);
    for place in &places {
        // The DATA before this entry is not full.
        runs_on |= all % SERVER_MOST != 0;
        let header = header::long_entry(&server.store.contents(*place)).len();
        headers.push(header);
        all += if directory.long { header } else { 80 };
    }
    rows.push(if all <= SERVER_MOST { EACH[3] } else { EACH[4] });
    if runs_on {
        rows.push(EACH[5]);
    }
    if headers.iter().any(|&length| length > 80) {
        rows.push(EACH[7]);
    }
    if directory.long {
        let largest = headers.iter().copied().max().unwrap_or(0);
        let reached = [
            largest > 256,
            largest > 2560,
            all % SERVER_MOST == 0,
            headers == [80],
        ];
        let reached = LONG.iter().zip(reached).filter(|(_, reached)| *reached);
        rows.extend(reached.map(|(row, _)| *row));
    }
}

/// What a packet makes of the last taker, and the row that it reaches.
pub(super) fn turn(
    before: Taker,
    downlink: Downlink,
    framed: &Framed,
    answer: &Answer,
) -> (Taker, Option<&'static str>) {
    let listing = matches!(downlink, Downlink::Listing { .. });
    let (kind, information) = match framed {
        Framed::Whole { kind, information } => (Type::of(*kind), information.as_slice()),
        _ => (None, &[][..]),
    };
    let of_0 = information.starts_with(&[0; 4]);
    match (answer, kind) {
        (Answer::Closed(_), _) => (Taker::Nothing, listing.then_some(TURNS[6])),
        (Answer::Quiet(_), Some(Type::DownloadCmd)) if of_0 => {
            let behind = before == Taker::Directory;
            (Taker::Download, behind.then_some(TURNS[2]))
        }
        (Answer::Quiet(_), _) if is_directory(kind) && of_0 => {
            let row = match before {
                Taker::Nothing => None,
                Taker::Download => Some(TURNS[0]),
                Taker::Directory => Some(TURNS[1]),
            };
            (Taker::Directory, row)
        }
        (Answer::Sent(..), Some(Type::SelectCmd)) => (Taker::Nothing, None),
        (_, Some(Type::DlNakCmd)) if listing => (before, Some(TURNS[3])),
        (Answer::Quiet(_), Some(Type::DlNakCmd)) => {
            let behind = before == Taker::Directory;
            (before, behind.then_some(TURNS[4]))
        }
        (_, Some(Type::UploadCmd | Type::Data | Type::DataEnd)) => {
            (before, listing.then_some(TURNS[5]))
        }
        _ => (before, None),
    }
}
