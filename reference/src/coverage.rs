//! A count of what scripts reach: packets sent and received, each refusal with
//! its ground, each closing rule, and some turns of uploads and downloads.

mod directories;
mod rows;

use std::collections::BTreeMap;
use std::io::{self, Write};

use crate::equation::{is_number, Comparison, Equation, Relation, Symbol};
use crate::header;
use crate::packet::{number, Framed, Packet, Type};
use crate::script::{Call, Watch, LINE_MOST};
use crate::server::{Answer, Downlink, Server, Session, Uplink};
use crate::store::blocks_needed;
use directories::{is_directory, Taker};
use rows::{rows, ENDINGS, SERVERS_OWN, SEVERAL};

/// What is known of a receive call before it is made.
struct Heard {
    framed: Framed,
    /// Some of the packet was there before.
    in_pieces: bool,
    uplink: Uplink,
    downlink: Downlink,
    /// The ground of a refusal, should one be given.
    ground: String,
    /// The rows of `SEVERAL` that are reached, should a SELECT be accepted.
    several: Vec<&'static str>,
    /// The rows that are reached, should a directory be accepted.
    directory: Vec<String>,
}

#[derive(Default)]
pub struct Coverage {
    counts: BTreeMap<String, usize>,
    heard: Option<Heard>,
    /// Why an open, drop or rx would be refused.
    session_ground: &'static str,
    /// What each session took last from its selection.
    takers: BTreeMap<u32, Taker>,
}

fn uplink_name(uplink: Uplink) -> &'static str {
    match uplink {
        Uplink::Idle => "Idle",
        Uplink::Receiving { .. } => "Receiving",
        Uplink::Ignoring => "Ignoring",
    }
}

fn downlink_name(downlink: Downlink) -> &'static str {
    match downlink {
        Downlink::Idle => "Idle",
        Downlink::Sending { .. } => "Sending",
        Downlink::Ended { .. } => "Ended",
        Downlink::Aborting { .. } => "Aborting",
        Downlink::Listing { .. } => "Listing",
    }
}

impl Coverage {
    pub fn new() -> Coverage {
        Coverage {
            counts: rows().into_iter().map(|row| (row, 0)).collect(),
            heard: None,
            session_ground: "",
            takers: BTreeMap::new(),
        }
    }

    /// Adds the counts of another table.
    pub fn add(&mut self, other: &Coverage) {
        for (row, count) in &other.counts {
            *self.counts.entry(row.clone()).or_default() += count;
        }
    }

    /// The rows that nothing reached.
    pub fn missing(&self) -> Vec<&str> {
        self.counts
            .iter()
            .filter(|(_, count)| **count == 0)
            .map(|(row, _)| row.as_str())
            .collect()
    }

    /// The rows that were counted and are not among those foreseen.
    pub fn unforeseen(&self) -> Vec<&str> {
        let foreseen = rows();
        self.counts
            .keys()
            .filter(|row| !foreseen.contains(row))
            .map(String::as_str)
            .collect()
    }

    pub fn print(&self, output: &mut impl Write) -> io::Result<()> {
        for (row, count) in &self.counts {
            writeln!(output, "{count}\t{row}")?;
        }
        Ok(())
    }

    fn count(&mut self, row: impl Into<String>) {
        *self.counts.entry(row.into()).or_default() += 1;
    }

    fn receive(&mut self, answer: &Answer, lent: usize) {
        let heard = match self.heard.take() {
            Some(heard) => heard,
            None => return,
        };
        if heard.framed != Framed::Open {
            self.count_received(&heard, answer, lent);
        }
        match answer {
            Answer::Refused(_) => {}
            Answer::Closed(_) => self.count(closing(&heard)),
            Answer::Quiet(_) => self.count_quiet(&heard),
            Answer::Sent(_, packet) => self.count_response(&heard, packet),
        }
    }

    fn count_received(&mut self, heard: &Heard, answer: &Answer, lent: usize) {
        if let Framed::Whole { kind, .. } = heard.framed {
            match Type::of(kind) {
                Some(kind) => self.count(format!("received {}", kind.name())),
                None => self.count("received type 18 to 31"),
            }
        }
        if heard.in_pieces {
            self.count("received in several pieces");
        }
        if let Answer::Closed(took) | Answer::Quiet(took) | Answer::Sent(took, _) = answer {
            if *took < lent {
                self.count("received with bytes behind it");
            }
        }
    }

    /// Counts what follows a directory or a download, and what a directory
    /// lets pass.
    fn take(&mut self, session: u32, answer: &Answer) {
        let heard = match &self.heard {
            Some(heard) => heard,
            None => return,
        };
        let before = self.takers.get(&session).copied().unwrap_or_default();
        let (after, row) = directories::turn(before, heard.downlink, &heard.framed, answer);
        self.takers.insert(session, after);
        if let Some(row) = row {
            self.count(row);
        }
    }

    fn count_quiet(&mut self, heard: &Heard) {
        let (kind, information) = match &heard.framed {
            Framed::Whole { kind, information } => (kind, information),
            _ => return,
        };
        match Type::of(*kind) {
            Some(Type::Data) if heard.uplink == Uplink::Ignoring => {
                self.count("upload, DATA ignored")
            }
            Some(Type::Data) if information.is_empty() => self.count("upload, DATA of 0 bytes"),
            Some(Type::Data) => self.count("upload, DATA stored"),
            Some(Type::DataEnd) => self.count("upload, DATA_END without an answer"),
            Some(Type::DlNakCmd) => self.count("download, DL_NAK_CMD on an idle downlink"),
            Some(Type::DownloadCmd) => self.count_download(heard, information),
            Some(Type::DirShortCmd | Type::DirLongCmd) => {
                heard.directory.iter().for_each(|row| self.count(row))
            }
            _ => self.count("something without an answer"),
        }
    }

    fn count_download(&mut self, heard: &Heard, information: &[u8]) {
        self.count(format!("download, from {}", heard.ground));
        if number(&information[..4]) == 0 {
            self.count("download, of number 0");
        }
        if information[8] != 0 {
            self.count("download, with a lock destination");
        }
    }

    fn count_response(&mut self, heard: &Heard, packet: &Packet) {
        let (kind, information) = match &heard.framed {
            Framed::Whole { kind, information } => (kind, information),
            _ => return,
        };
        let asked = Type::of(*kind);
        let ground = &heard.ground;
        let name = packet.kind.name();
        if packet.kind == Type::SelectResp {
            for row in &heard.several {
                self.count(*row);
            }
        }
        match packet.kind {
            Type::UlErrorResp | Type::DlErrorResp => {
                let refusal = packet.information[0];
                let told = matches!(refusal, 1 | 2 | 8 | 13) || is_directory(asked);
                if told && !ground.is_empty() {
                    self.count(format!("{name} {refusal}, {ground}"));
                } else {
                    self.count(format!("{name} {refusal}"));
                }
            }
            Type::UlNakResp => self.count(format!("{name} {}, {ground}", packet.information[0])),
            Type::UlGoResp => self.count(format!("upload, {ground}")),
            Type::SelectResp if packet.information == [0, 0] => self.count("select, no file"),
            Type::SelectResp => self.count("select, some files"),
            Type::DlCompletedResp if information == &[0] => self.count(ENDINGS[0]),
            Type::DlCompletedResp => self.count(ENDINGS[1]),
            Type::DlAbortedResp if asked == Some(Type::DlNakCmd) => self.count(ENDINGS[4]),
            Type::DlAbortedResp if information.len() == 1 => self.count(ENDINGS[3]),
            Type::DlAbortedResp => self.count(ENDINGS[2]),
            _ => {}
        }
    }
}

/// The rule by which the link was closed.
fn closing(heard: &Heard) -> String {
    let (kind, information) = match &heard.framed {
        Framed::Whole { kind, information } => (kind, information),
        _ => return "closed, length above 256".to_string(),
    };
    let kind = match Type::of(*kind) {
        Some(kind) => kind,
        None => return "closed, type 18 to 31".to_string(),
    };
    let name = kind.name();
    let (uplink, downlink) = (uplink_name(heard.uplink), downlink_name(heard.downlink));
    match kind {
        Type::DataEnd if heard.uplink != Uplink::Idle => {
            format!("closed, {name} with information while {uplink}")
        }
        Type::Data | Type::DataEnd | Type::UploadCmd => format!("closed, {name} while {uplink}"),
        Type::DlNakCmd if !information.is_empty() => {
            format!("closed, {name} with information while {downlink}")
        }
        _ if SERVERS_OWN.contains(&kind) => format!("closed, {name} is the server's own"),
        _ => format!("closed, {name} while {downlink}"),
    }
}

/// What tells apart the cases of one answer, as far as the packet has some.
fn ground(server: &Server, session: &Session, framed: &Framed) -> String {
    let (kind, information) = match framed {
        Framed::Whole { kind, information } => (kind, information),
        _ => return String::new(),
    };
    match (Type::of(*kind), session.uplink) {
        (Some(Type::UploadCmd), _) => upload_ground(server, information),
        (Some(Type::Data), _) => "DATA beyond the length".to_string(),
        (Some(Type::DataEnd), Uplink::Receiving { place, .. }) => {
            let length = server.store.file(place).length;
            match header::check(&server.store.contents(place), length) {
                Ok(_) => "upload times used up".to_string(),
                Err(fault) => format!("{fault:?}"),
            }
        }
        (Some(Type::SelectCmd), _) => match Equation::parse(information) {
            Ok(_) => String::new(),
            Err(fault) => format!("{fault:?}"),
        },
        (Some(Type::DownloadCmd), _) => download_ground(server, session, information),
        (Some(kind @ (Type::DirShortCmd | Type::DirLongCmd)), _) => {
            directories::ground(session, kind, information)
        }
        _ => String::new(),
    }
}

fn upload_ground(server: &Server, information: &[u8]) -> String {
    if information.len() != 8 {
        return "not 8 bytes".to_string();
    }
    let (file_number, length) = (number(&information[..4]), number(&information[4..]));
    let ground = match server.store.find(file_number) {
        _ if file_number == 0 && server.store.free_blocks() < blocks_needed(length) => "blocks",
        _ if file_number == 0 && !server.store.places.contains(&None) => "places",
        _ if file_number == 0 => "new",
        None => "",
        Some(place) => {
            let file = server.store.file(place);
            let held = server.sessions.iter().flatten().any(|session| {
                matches!(session.uplink, Uplink::Receiving { place: other, .. } if other == place)
            });
            match file.received {
                _ if file.length != length => "length differs",
                _ if held => "another session is uploading it",
                0 => "continued at 0",
                received if received == length => "continued at its end",
                _ => "continued in the middle",
            }
        }
    };
    ground.to_string()
}

fn download_ground(server: &Server, session: &Session, information: &[u8]) -> String {
    if information.len() != 9 {
        return "not 9 bytes".to_string();
    }
    let selection = &session.selection;
    let file_number = match number(&information[..4]) {
        0 => selection.numbers.get(selection.position).copied(),
        given => Some(given),
    };
    let place = match file_number.and_then(|given| server.store.find(given)) {
        Some(place) => place,
        None => return String::new(),
    };
    let length = server.store.file(place).length;
    match number(&information[4..8]) {
        0 => "0".to_string(),
        offset if offset == length => "its end".to_string(),
        offset if offset > length => String::new(),
        _ => "the middle".to_string(),
    }
}

/// The rows of `SEVERAL` that a SELECT with this equation reaches.
fn several_rows(server: &Server, framed: &Framed) -> Vec<&'static str> {
    let equation = match framed {
        Framed::Whole { kind, information } if Type::of(*kind) == Some(Type::SelectCmd) => {
            Equation::parse(information)
        }
        _ => return Vec::new(),
    };
    let equation = match equation {
        Ok(equation) => equation,
        Err(_) => return Vec::new(),
    };
    let mut relations = Vec::new();
    for symbol in equation.symbols() {
        if let Symbol::Relation(relation) = symbol {
            relations.push(relation);
        }
    }
    let mut reached = [false; SEVERAL.len()];
    for (place, file) in server.store.places.iter().enumerate() {
        if matches!(file, Some(file) if file.is_complete()) {
            note_several(&relations, &server.store.contents(place), &mut reached);
        }
    }
    let rows = SEVERAL.iter().zip(reached).filter(|(_, reached)| *reached);
    rows.map(|(row, _)| *row).collect()
}

/// Notes which rows of `SEVERAL` these relations reach on a file.
fn note_several(relations: &[&Relation], file: &[u8], reached: &mut [bool; SEVERAL.len()]) {
    for (at, relation) in relations.iter().enumerate() {
        let first = match header::first(file, relation.id()) {
            Some(first) if relation.holds(file) => first,
            _ => continue,
        };
        if !relation.is_met_by(first) {
            reached[0] = true;
            reached[1] |= matches!(relation, Relation::Number { .. }) && !is_number(first);
        }
        let mut before = relations[..at].iter();
        reached[2] |= before.any(|other| are_opposite(relation, other) && other.holds(file));
    }
}

/// Whether one is "equal" and the other "not equal" to the same constant.
fn are_opposite(one: &Relation, other: &Relation) -> bool {
    let mut opposite = one.clone();
    match &mut opposite {
        Relation::Number { comparison, .. } => match comparison {
            Comparison::Equal => *comparison = Comparison::NotEqual,
            Comparison::NotEqual => *comparison = Comparison::Equal,
            _ => return false,
        },
        Relation::Text { equal, .. } => *equal = !*equal,
    }
    opposite == *other
}

/// Why a call on that session would be refused.
fn session_ground(server: &Server, call: Call) -> &'static str {
    let (session, grounds) = match call {
        Call::Open(session) => (session, ["open out of range", "open of an open session"]),
        Call::Lose(session) => (session, ["drop out of range", "drop of a closed session"]),
        Call::Receive(session, _) | Call::Request(session) => {
            (session, ["rx out of range", "rx of a closed session"])
        }
    };
    if (1..=server.sizes.sessions).contains(&(session as usize)) {
        grounds[1]
    } else {
        grounds[0]
    }
}

fn session_of(server: &Server, number: u32) -> Option<&Session> {
    let index = (number as usize).checked_sub(1)?;
    server.sessions.get(index)?.as_ref()
}

impl Watch for Coverage {
    fn before(&mut self, server: &Server, _clock: u32, call: Call) {
        self.session_ground = session_ground(server, call);
        match call {
            Call::Receive(number, bytes) => {
                self.heard = session_of(server, number).map(|session| {
                    let in_pieces = !session.frame.held().is_empty();
                    let (_, framed) = session.frame.clone().feed(bytes);
                    Heard {
                        in_pieces,
                        uplink: session.uplink,
                        downlink: session.downlink,
                        ground: ground(server, session, &framed),
                        several: several_rows(server, &framed),
                        directory: directories::accepted_rows(server, session, &framed),
                        framed,
                    }
                });
            }
            Call::Lose(number) => {
                let downlink = session_of(server, number).map(|session| session.downlink);
                if downlink.unwrap_or(Downlink::Idle) != Downlink::Idle {
                    self.count("download, lost with its link");
                }
            }
            Call::Open(_) | Call::Request(_) => {}
        }
    }

    fn after(&mut self, _server: &Server, call: Call, answer: &Answer) {
        if let Answer::Refused(number) = answer {
            let ground = self.session_ground;
            self.count(format!("refused {number}, {ground}"));
        }
        if let Answer::Sent(_, packet) = answer {
            self.count(format!("sent {}", packet.kind.name()));
        }
        match call {
            Call::Receive(session, bytes) => {
                self.take(session, answer);
                self.receive(answer, bytes.len());
            }
            Call::Request(_) => match answer {
                Answer::Sent(_, packet) if packet.kind == Type::DlAbortedResp => {
                    self.count(ENDINGS[5])
                }
                _ => {}
            },
            Call::Open(_) | Call::Lose(_) => {}
        }
    }

    fn unreadable(&mut self, line: &[u8]) {
        if line.len() > LINE_MOST {
            self.count("line too long");
        } else {
            self.count("line that can't be read");
        }
    }
}
