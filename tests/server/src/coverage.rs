//! How often each answer was given: packets by their type, refusals by their number; and what directories came to.
use crate::call::{Act, Call};
use crate::image::entries;
use crate::proved::Answer;
use reference::packet::Type;
use reference::server::{Directory, Downlink, Listed, Server, Session, ENTRIES};
use std::collections::BTreeMap;
use std::fmt;

#[derive(Clone, Debug, Default, PartialEq, Eq)]
pub struct Coverage {
    given: BTreeMap<String, usize>,
}

/// Every answer that calls can get, and what directories come to. 35 is none: no state that calls made gets it. 33 is given for sizes and short slices
/// alone.
pub const ANSWERS: [&str; 53] = [
    "LOGIN_RESP",
    "UL_GO_RESP",
    "UL_ERROR_RESP 1",
    "UL_ERROR_RESP 2",
    "UL_ERROR_RESP 3",
    "UL_ERROR_RESP 4",
    "UL_ERROR_RESP 12",
    "UL_ERROR_RESP 13",
    "UL_ACK_RESP",
    "UL_NAK_RESP 3",
    "UL_NAK_RESP 6",
    "UL_NAK_RESP 7",
    "UL_NAK_RESP 14",
    "UL_NAK_RESP 15",
    "UL_NAK_RESP 16",
    "SELECT_RESP",
    "DL_ERROR_RESP 1",
    "DL_ERROR_RESP 2",
    "DL_ERROR_RESP 4",
    "DL_ERROR_RESP 5",
    "DL_ERROR_RESP 8",
    "DL_ERROR_RESP 10",
    "DL_ERROR_RESP 11",
    "DATA",
    "DATA_END",
    "DL_ABORTED_RESP",
    "DL_COMPLETED_RESP",
    "quiet, nothing taken",
    "quiet, 1 byte taken",
    "quiet, more taken",
    "closed, 2 bytes taken",
    "closed, 1 byte taken",
    "closed, more taken",
    "refused 32",
    "refused 34",
    "DATA of 256 bytes",
    "DATA of fewer bytes",
    "SELECT_RESP of no file",
    "a directory is refused by 1",
    "a directory is refused by 4",
    "a directory is refused by 5",
    "a directory is refused by 11",
    "a short directory of one file",
    "a long directory of one file",
    "a short directory of the selection",
    "a long directory of the selection",
    "a directory of ten files, more being left",
    "a directory within an entry",
    "a directory at its end",
    "a directory is ended",
    "a directory is broken off",
    "a directory is closed",
    "a directory beside an upload",
];

/// The downlink of the session that a call names.
pub fn session<'a>(server: &'a Server, call: &Call) -> Option<&'a Session> {
    let session = server.sessions.get(call.session.checked_sub(1)?)?;
    session.as_ref()
}

fn is_directory(call: &Call) -> bool {
    match &call.act {
        Act::Receive(bytes) => matches!(bytes.get(1), Some(14 | 15)),
        _ => false,
    }
}

/// Which directory it is, and how far it has come.
fn listing(
    server: &Server,
    session: &Session,
    directory: Directory,
    sent: u32,
) -> Vec<&'static str> {
    let mut names = vec![match (directory.long, directory.listed) {
        (false, Listed::One { .. }) => "a short directory of one file",
        (true, Listed::One { .. }) => "a long directory of one file",
        (false, Listed::Selected { .. }) => "a short directory of the selection",
        (true, Listed::Selected { .. }) => "a long directory of the selection",
    }];
    let mut left = sent as usize;
    let entries = entries(server, session, directory);
    for entry in &entries {
        if 0 < left && left < entry.len() {
            names.push("a directory within an entry");
        }
        left = left.saturating_sub(entry.len());
    }
    if entries.concat().len() == sent as usize {
        names.push("a directory at its end");
    }
    match directory.listed {
        Listed::Selected { first, end }
            if end - first == ENTRIES && end < session.selection.numbers.len() =>
        {
            names.push("a directory of ten files, more being left");
        }
        _ => {}
    }
    names
}

fn taken(count: usize) -> &'static str {
    match count {
        0 => "nothing taken",
        1 => "1 byte taken",
        2 => "2 bytes taken",
        _ => "more taken",
    }
}

/// The names of an answer: the first tells answers apart by type and number, the second, where there is one, by size.
fn names(answer: &Answer) -> Vec<String> {
    let packet = match answer {
        Answer::Quiet(count @ 0..=1) => return vec![format!("quiet, {}", taken(*count))],
        Answer::Quiet(_) => return vec!["quiet, more taken".to_string()],
        Answer::Closed(count) => return vec![format!("closed, {}", taken(*count))],
        Answer::Refused(number) => return vec![format!("refused {number}")],
        Answer::Sent(_, packet) => packet,
    };
    let kind = Type::of(packet[1] % 32).expect("a type of the protocol");
    let name = kind.name().to_string();
    match (kind, packet.len() - 2) {
        (Type::UlErrorResp | Type::UlNakResp | Type::DlErrorResp, _) => {
            vec![format!("{name} {}", packet[2])]
        }
        (Type::Data, 256) => vec![name, "DATA of 256 bytes".to_string()],
        (Type::Data, _) => vec![name, "DATA of fewer bytes".to_string()],
        (Type::SelectResp, _) if packet[2..] == [0, 0] => {
            vec![name, "SELECT_RESP of no file".to_string()]
        }
        _ => vec![name],
    }
}

impl Coverage {
    pub fn count(&mut self, answer: &Answer) {
        for name in names(answer) {
            *self.given.entry(name).or_default() += 1;
        }
    }

    /// What a call came to, where its session has a directory after it, or had one before it, or asked for one.
    pub fn count_directory(
        &mut self,
        before: Option<Downlink>,
        call: &Call,
        answer: &Answer,
        server: &Server,
    ) {
        let after = session(server, call);
        let mut names = Vec::new();
        if let Some(Downlink::Listing { .. }) = before {
            let down = after.map(|session| session.downlink);
            match (&call.act, answer, down) {
                (Act::Request, Answer::Sent(..), Some(Downlink::Idle)) => {
                    names.push("a directory is ended")
                }
                (_, Answer::Sent(..), Some(Downlink::Idle)) => {
                    names.push("a directory is broken off")
                }
                (_, Answer::Closed(_), _) => names.push("a directory is closed"),
                (_, Answer::Sent(_, packet), _) if 4 <= packet[1] % 32 => {
                    names.push("a directory beside an upload")
                }
                _ => {}
            }
        }
        if let (true, Answer::Sent(_, packet)) = (is_directory(call), answer) {
            match packet[..] {
                [1, 9, 1] => names.push("a directory is refused by 1"),
                [1, 9, 4] => names.push("a directory is refused by 4"),
                [1, 9, 5] => names.push("a directory is refused by 5"),
                [1, 9, 11] => names.push("a directory is refused by 11"),
                _ => {}
            }
        }
        if let Some(session) = after {
            if let Downlink::Listing { directory, sent } = session.downlink {
                names.extend(listing(server, session, directory, sent));
            }
        }
        for name in names {
            *self.given.entry(name.to_string()).or_default() += 1;
        }
    }

    pub fn add(&mut self, other: &Coverage) {
        for (name, count) in &other.given {
            *self.given.entry(name.clone()).or_default() += count;
        }
    }

    pub fn of(&self, name: &str) -> usize {
        self.given.get(name).copied().unwrap_or(0)
    }

    /// The answers that were never given.
    pub fn missing(&self) -> Vec<&'static str> {
        let given = |name: &&str| self.of(name) == 0;
        ANSWERS.into_iter().filter(given).collect()
    }

    /// The answers that no call can get.
    pub fn unknown(&self) -> Vec<&String> {
        let unknown = |name: &&String| !ANSWERS.contains(&name.as_str());
        self.given.keys().filter(unknown).collect()
    }
}

impl fmt::Display for Coverage {
    fn fmt(&self, f: &mut fmt::Formatter) -> fmt::Result {
        for (name, count) in &self.given {
            writeln!(f, "{count:>10}  {name}")?;
        }
        Ok(())
    }
}
