//! What `passday` prints for a script, in words, beside the lines of the script.
use std::collections::HashMap;

use crate::header::{self, End, Item};
use crate::names::name_of;
use crate::play::{Begun, Event, Play, Step, Upload};
use crate::script::Command;
use crate::sheet::{self, Marks};
use crate::why::{self, Question};
use crate::words::{self, Texts, Told};

/// A play that is shown, with the texts of its equations, the MAXSEL that was asked for, and the marks where it is one of an answer sheet.
pub struct Pass {
    pub play: Play,
    pub texts: Texts,
    pub maxsel: Option<usize>,
    pub marks: Option<Marks>,
}

/// What is said of an event: whether the station or the server speaks, the packet's name, its words, its bytes and lines of detail.
#[derive(Clone, Debug, PartialEq, Eq)]
pub struct Row {
    pub session: Option<u32>,
    /// '>' the station sends, '<' the server answers, ' ' neither.
    pub way: char,
    pub name: String,
    pub words: String,
    pub bytes: Vec<u8>,
    pub details: Vec<String>,
}

/// What the server is sending on a session.
enum Sending {
    /// What has come of a download so far, from its first byte; none once its header is listed, or where it does not begin at the first byte.
    Download(Option<Vec<u8>>),
    /// The files of a directory whose entries are not told yet, and what has come of the next one.
    Directory { left: Vec<u32>, bytes: Vec<u8> },
}

/// Tells the steps of a play one after the other.
pub struct Teller<'a> {
    texts: &'a Texts,
    /// Whether the lines are those of an answer sheet.
    is_sheet: bool,
    sending: HashMap<u32, Sending>,
}

pub fn row(session: Option<u32>, way: char, name: &str, words: impl Into<String>) -> Row {
    let (name, words) = (name.to_string(), words.into());
    Row {
        session,
        way,
        name,
        words,
        bytes: Vec::new(),
        details: Vec::new(),
    }
}

/// What the server does beside sending packets.
fn server_row(session: u32, name: &str, words: &str) -> Row {
    row(Some(session), '<', name, words)
}

fn packet_row(session: u32, way: char, told: Told, bytes: &[u8]) -> Row {
    let Told { name, words } = told;
    Row {
        session: Some(session),
        way,
        name,
        words,
        bytes: bytes.to_vec(),
        details: Vec::new(),
    }
}

impl<'a> Teller<'a> {
    pub fn new(pass: &'a Pass) -> Teller<'a> {
        Teller {
            texts: &pass.texts,
            is_sheet: pass.marks.is_some(),
            sending: HashMap::new(),
        }
    }

    fn question(&self, step: &Step) -> Question<'a> {
        Question {
            postfix: self.texts.postfix.get(&step.line),
            equations: &self.texts.equations,
        }
    }

    /// The rows of a step: first what the line does, then what comes of it.
    pub fn rows(&mut self, step: &Step) -> Vec<Row> {
        let (session, first) = match &step.command {
            None => return vec![unreadable(self.is_sheet)],
            Some(Command::Why(..)) => return why::rows(step, &self.question(step)),
            Some(Command::Time(clock)) => return vec![row(None, ' ', "clock", clock.to_string())],
            Some(Command::Open(session)) => (
                *session,
                Some(row(Some(*session), '>', "login", "the link begins")),
            ),
            Some(Command::Drop(session)) => (
                *session,
                Some(row(Some(*session), ' ', "lost", lost_words(step))),
            ),
            Some(Command::Rx(session, bytes)) if step.events.is_empty() && bytes.is_empty() => (
                *session,
                Some(row(Some(*session), '>', "nothing", "the line has no bytes")),
            ),
            Some(Command::Rx(session, bytes)) => (*session, refused_bytes(*session, bytes, step)),
        };
        let mut rows: Vec<Row> = first.into_iter().collect();
        let mut heard: Option<(&[u8], Option<&Upload>)> = None;
        for event in &step.events {
            if let Event::Heard { packet, upload, .. } = event {
                heard = Some((packet, upload.as_ref()));
            }
            let mut row = self.event(session, event, heard);
            if let (Event::Sent(packet), Some((_, Some(upload)))) = (event, heard) {
                if words::kind(packet) == Some(6) {
                    row.words = accepted_words(step, upload);
                }
            }
            rows.push(row);
        }
        rows
    }

    fn event(
        &mut self,
        session: u32,
        event: &Event,
        heard: Option<(&[u8], Option<&Upload>)>,
    ) -> Row {
        match event {
            Event::Heard {
                packet,
                upload,
                begun,
            } => {
                if let Some(begun) = begun {
                    self.sending.insert(session, sending(begun, packet));
                }
                let told = words::heard(
                    packet,
                    upload.as_ref(),
                    begun.as_ref(),
                    &self.texts.equations,
                );
                let mut row = packet_row(session, '>', told, packet);
                if let (Some(13), Some(Sending::Directory { .. })) =
                    (words::kind(packet), self.sending.get(&session))
                {
                    row.words = "the directory is not wanted any more".to_string();
                }
                row
            }
            Event::Part { packet, new } => {
                let came = &packet[packet.len() - new..];
                packet_row(session, '>', words::part(packet), came)
            }
            Event::Forgot(packet) => {
                let mut row = packet_row(session, ' ', words::part(packet), packet);
                row.words = format!("forgotten with the link, {}", row.words);
                row
            }
            Event::Sent(packet) => self.sent(session, packet, heard),
            Event::Closed => {
                self.sending.remove(&session);
                let words = closed_words(heard.map(|(packet, _)| packet));
                server_row(session, "closed", words)
            }
            Event::Refused(number) => {
                let words = format!("{number}: {}", words::local_refusal(*number));
                server_row(session, "refused", &words)
            }
        }
    }

    /// A packet of the server, with the header that it completes, or with what is wrong in the file that it refuses.
    fn sent(
        &mut self,
        session: u32,
        packet: &[u8],
        heard: Option<(&[u8], Option<&Upload>)>,
    ) -> Row {
        let after = heard.and_then(|(packet, _)| words::kind(packet));
        let mut row = packet_row(session, '<', words::sent(packet, after), packet);
        match words::kind(packet) {
            Some(0) => row.details = self.listed(session, &packet[2..]),
            Some(1) => row.words = end_words(self.sending.remove(&session)).to_string(),
            Some(7) => {
                if let Some((sent, Some(upload))) = heard {
                    row.details
                        .extend(words::nak_detail(packet[2], sent, upload));
                }
            }
            _ => {}
        }
        row
    }

    /// The items of the headers that a DATA completes: the one of a download, or those of a directory.
    fn listed(&mut self, session: u32, data: &[u8]) -> Vec<String> {
        match self.sending.get_mut(&session) {
            Some(Sending::Download(collected)) => downloaded(collected, data),
            Some(Sending::Directory { left, bytes }) => entries(left, bytes, data),
            None => Vec::new(),
        }
    }
}

/// The line at which a script ends that can't be read further.
fn unreadable(is_sheet: bool) -> Row {
    match is_sheet {
        true => row(
            None,
            ' ',
            "refused",
            "37: the line is too long, or its script's fields can't be read; nothing after it is marked",
        ),
        false => row(
            None,
            ' ',
            "unreadable",
            "the line can't be read, and nothing after it is",
        ),
    }
}

/// What is sent after the packet that began it; a download is told where it begins at its first byte.
fn sending(begun: &Begun, packet: &[u8]) -> Sending {
    match begun {
        Begun::Download(_) if packet[6..10] == [0; 4] => Sending::Download(Some(Vec::new())),
        Begun::Download(_) => Sending::Download(None),
        Begun::Directory(files) => Sending::Directory {
            left: files.clone(),
            bytes: Vec::new(),
        },
    }
}

fn item_lines(items: &[Item]) -> Vec<String> {
    let line = |item: &Item| format!("{} {}", name_of(item.id), header::value(item));
    items.iter().map(line).collect()
}

/// The items of a downloaded header, with the DATA that completes it.
fn downloaded(collected: &mut Option<Vec<u8>>, data: &[u8]) -> Vec<String> {
    let bytes = match collected {
        Some(bytes) => bytes,
        None => return Vec::new(),
    };
    bytes.extend(data);
    let (items, end) = header::read(bytes);
    if matches!(end, End::RunsOut(_)) {
        return Vec::new();
    }
    let lines = item_lines(&items);
    *collected = None;
    lines
}

/// The entries that a DATA of a directory completes, each with its items: they run on from one DATA to the next. At the end what has come of
/// the next one.
fn entries(left: &mut Vec<u32>, bytes: &mut Vec<u8>, data: &[u8]) -> Vec<String> {
    let mut lines = Vec::new();
    bytes.extend(data);
    while let (false, Some(&file)) = (bytes.is_empty(), left.first()) {
        let (items, end) = header::read(bytes);
        let length = match end {
            End::Whole(length) => length,
            _ => {
                let came = words::count(bytes.len(), "byte");
                lines.push(format!("the entry of file {file}: {came} so far"));
                break;
            }
        };
        lines.push(format!("the entry of file {file}:"));
        lines.extend(item_lines(&items).iter().map(|line| format!("  {line}")));
        left.remove(0);
        bytes.drain(..length);
    }
    lines
}

/// What a DATA_END of the server ends.
fn end_words(sending: Option<Sending>) -> &'static str {
    match sending {
        Some(Sending::Directory { left, .. }) if left.is_empty() => "the directory is whole",
        Some(Sending::Directory { .. }) => "the directory is broken off",
        _ => "",
    }
}

/// The number and the upload time of a file that is accepted; the time is read from the state.
fn accepted_words(step: &Step, upload: &Upload) -> String {
    let file = step
        .after
        .files
        .iter()
        .flatten()
        .find(|file| file.number == upload.file);
    match file {
        Some(file) => format!(
            "file {} is accepted, its upload time is {}",
            file.number, file.time
        ),
        None => format!("file {} is accepted", upload.file),
    }
}

fn lost_words(step: &Step) -> &'static str {
    match step.events.first() {
        Some(Event::Refused(_)) => "the link would be lost",
        _ => "the link is lost",
    }
}

/// The bytes of a line that the server refused as a whole.
fn refused_bytes(session: u32, bytes: &[u8], step: &Step) -> Option<Row> {
    match step.events.first() {
        Some(Event::Refused(_)) => {
            let mut row = row(
                Some(session),
                '>',
                "bytes",
                words::count(bytes.len(), "byte"),
            );
            row.bytes = bytes.to_vec();
            Some(row)
        }
        _ => None,
    }
}

/// Which of the closing rules fits the packet.
fn closed_words(packet: Option<&[u8]>) -> &'static str {
    let packet = match packet {
        Some(packet) if packet.len() >= 2 => packet,
        _ => return "the server closes the link",
    };
    let length = words::announced(packet);
    match packet[1] & 31 {
        _ if length > 256 => "the server closes the link: an announced length above 256",
        18..=31 => "the server closes the link: a type 18 to 31",
        2 | 4..=7 | 9..=11 | 17 => "the server closes the link: a server's own type",
        1 if length > 0 => "the server closes the link: DATA_END with information",
        13 if length > 0 => "the server closes the link: DL_NAK_CMD with information",
        _ => "the server closes the link: a packet not expected in the session's state",
    }
}

/// The whole explanation.
pub fn explain(pass: &Pass) -> String {
    let play = &pass.play;
    let marks = pass.marks.as_deref();
    let mut text = first_line(pass);
    text.push_str("1 > what the station of session 1 sends; 1 < what the server answers it\n");
    let width = play.steps.len().to_string().len();
    let mut teller = Teller::new(pass);
    for (at, step) in play.steps.iter().enumerate() {
        let mark = marks.and_then(|marks| marks.get(at)).map(sheet::mark_row);
        for row in teller.rows(step).iter().chain(&mark) {
            write_row(&mut text, step.line, width, row);
        }
    }
    let blocks = play.sheet.lines().last().unwrap_or_default();
    let fields: Vec<&str> = blocks.split('\t').collect();
    if let [_, free, held] = fields[..] {
        text.push_str(&format!("blocks {free} free, {held} held\n"));
    }
    text
}

/// What is said before all else: the marks of a sheet, or that nothing was compared.
fn first_line(pass: &Pass) -> String {
    match (&pass.marks, pass.maxsel) {
        (Some(marks), _) => format!("marks {}\n", sheet::right(marks)),
        (None, Some(most)) => format!("{}\n", not_compared(most)),
        (None, None) => String::new(),
    }
}

/// Said first where the answers could not be compared with those of `passday`.
pub fn not_compared(most: usize) -> String {
    format!("MAXSEL {most}: not compared with passday, whose MAXSEL is 50; the answers are those of the proved library")
}

fn write_row(text: &mut String, line: usize, width: usize, row: &Row) {
    let who = match row.session {
        Some(session) => format!("{session} {}", row.way),
        None => "   ".to_string(),
    };
    let begin = format!("line {line:<width$}  {who}");
    text.push_str(format!("{begin} {}  {}", row.name, row.words).trim_end());
    text.push('\n');
    for detail in &row.details {
        text.push_str(&format!(
            "{:indent$}   {detail}\n",
            "",
            indent = begin.len()
        ));
    }
}
