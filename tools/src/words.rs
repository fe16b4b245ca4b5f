//! Packets, refusals and lines of a script in words.
use std::collections::{BTreeSet, HashMap};
use std::io;

use crate::blame::blame;
use crate::bytes::{number, to_hex};
use crate::names::packet_name;
use crate::play::{Begun, Event, Play, Upload};
use crate::programs::Home;
use crate::why::{self, Postfix};

/// Equations as text, by their bytes.
pub type Equations = HashMap<Vec<u8>, String>;

/// The texts of a script's equations: those of its SELECTs, and those that its questions name, with their relations.
#[derive(Default)]
pub struct Texts {
    pub equations: Equations,
    pub postfix: Postfix,
}

/// A packet's name, and what it says.
#[derive(Clone, Debug, PartialEq, Eq)]
pub struct Told {
    pub name: String,
    pub words: String,
}

fn told(kind: u8, words: impl Into<String>) -> Told {
    let words = words.into();
    let name = packet_name(kind);
    Told { name, words }
}

pub fn kind(packet: &[u8]) -> Option<u8> {
    packet.get(1).map(|byte| byte & 31)
}

/// The length that a packet's first two bytes announce.
pub fn announced(packet: &[u8]) -> usize {
    match packet {
        [low, second, ..] => usize::from(second >> 5) << 8 | usize::from(*low),
        _ => 0,
    }
}

/// file 1; files 1, 2, 3
pub fn files(numbers: &[u32]) -> String {
    let listed: Vec<String> = numbers.iter().map(u32::to_string).collect();
    match numbers.len() {
        1 => format!("file {}", listed[0]),
        _ => format!("files {}", listed.join(", ")),
    }
}

/// 1 byte, 2 bytes
pub fn count(number: usize, thing: &str) -> String {
    match number {
        1 => format!("1 {thing}"),
        _ => format!("{number} {thing}s"),
    }
}

// ---- equations

/// The texts of all equations of a script.
pub fn texts(play: &Play, home: &Home) -> io::Result<Texts> {
    let postfix = why::postfix(play, home)?;
    let mut asked = why::needed(&postfix);
    for event in play.steps.iter().flat_map(|step| &step.events) {
        if let Event::Heard { packet, .. } = event {
            if kind(packet) == Some(16) && announced(packet) <= 256 {
                asked.insert(packet[2..].to_vec());
            }
        }
    }
    let equations = equations(asked, home)?;
    Ok(Texts { equations, postfix })
}

/// The text of each equation, in one run of the proved program `equations`, and one more for those that end in an end mark.
fn equations(asked: BTreeSet<Vec<u8>>, home: &Home) -> io::Result<Equations> {
    let asked: Vec<Vec<u8>> = asked.into_iter().collect();
    let mut texts = Equations::new();
    let mut marked = Vec::new();
    for (bytes, answer) in asked.iter().zip(back(&asked, home)?) {
        match answer.as_str() {
            "refused\tmark" => marked.push(bytes.clone()),
            _ => drop(texts.insert(bytes.clone(), equation_words(&answer))),
        }
    }
    let unmarked: Vec<Vec<u8>> = marked
        .iter()
        .map(|bytes| bytes[..bytes.len() - 1].to_vec())
        .collect();
    for (bytes, answer) in marked.into_iter().zip(back(&unmarked, home)?) {
        texts.insert(
            bytes,
            format!("{} (and an end mark)", equation_words(&answer)),
        );
    }
    Ok(texts)
}

fn back(equations: &[Vec<u8>], home: &Home) -> io::Result<Vec<String>> {
    let lines: Vec<Vec<u8>> = equations
        .iter()
        .map(|bytes| format!("bytes\t{}", to_hex(bytes)).into_bytes())
        .collect();
    home.equations(&lines)
}

fn equation_words(answer: &str) -> String {
    match answer.split_once('\t') {
        Some(("text", text)) => text.to_string(),
        Some(("refused", "8")) => "badly formed: no equation".to_string(),
        Some(("refused", "deeper")) => "brackets nested deeper than text can have".to_string(),
        Some(("refused", "bytes")) => "more bytes than an equation as text can have".to_string(),
        _ => "an equation that has no text".to_string(),
    }
}

// ---- what a station sends

/// A whole packet that came in, or the two bytes at which the server closed.
pub fn heard(
    packet: &[u8],
    upload: Option<&Upload>,
    begun: Option<&Begun>,
    equations: &Equations,
) -> Told {
    let kind = kind(packet).unwrap_or(31);
    let information = packet.get(2..).unwrap_or_default();
    if announced(packet) > 256 {
        return told(
            kind,
            format!("a length of {} is announced: above 256", announced(packet)),
        );
    }
    let length = count(information.len(), "byte");
    let words = match kind {
        1 | 13 if !information.is_empty() => format!("with {length}, where none belong"),
        0 => data(information, upload),
        1 => upload.map_or(String::new(), |upload| format!("file {} ends", upload.file)),
        3 => upload_command(information),
        8 => download_command(information, begun),
        12 => acknowledged(information),
        13 => "the download did not come well, or is not wanted".to_string(),
        14 | 15 => directory_command(information, begun),
        16 => equations.get(information).cloned().unwrap_or_default(),
        _ => format!("{length}: not for a station to send"),
    };
    told(kind, words)
}

fn data(information: &[u8], upload: Option<&Upload>) -> String {
    let length = count(information.len(), "byte");
    match upload {
        None => length,
        Some(Upload {
            file,
            received,
            announced,
            ..
        }) => {
            let end = *received as usize + information.len();
            match end > *announced as usize {
                true => format!("{length}, of file {file} from byte {received}: beyond the {announced} announced"),
                false => format!("{length}, of file {file} from byte {received}"),
            }
        }
    }
}

/// Says the length where it is not the one that belongs there.
fn wrong_length(information: &[u8], wanted: usize) -> Option<String> {
    let length = information.len();
    (length != wanted).then(|| format!("{} and not {wanted}", count(length, "byte")))
}

fn upload_command(information: &[u8]) -> String {
    if let Some(words) = wrong_length(information, 8) {
        return words;
    }
    let length = number(&information[4..]) as usize;
    match number(information) {
        0 => format!("a new file of {}", count(length, "byte")),
        file => format!("continue file {file} of {}", count(length, "byte")),
    }
}

fn download_command(information: &[u8], begun: Option<&Begun>) -> String {
    if let Some(words) = wrong_length(information, 9) {
        return words;
    }
    let mut words = match (number(information), begun) {
        (0, Some(Begun::Download(file))) => format!("the next selected file, which is file {file}"),
        (0, _) => "the next selected file".to_string(),
        (file, _) => format!("file {file}"),
    };
    words.push_str(&format!(", from byte {}", number(&information[4..])));
    if information[8] != 0 {
        words.push_str(&format!(", lock destination {}", information[8]));
    }
    words
}

fn acknowledged(information: &[u8]) -> String {
    match wrong_length(information, 1) {
        Some(words) => words,
        None if information[0] == 0 => "the download came well".to_string(),
        None => format!("the download came well, for destination {}", information[0]),
    }
}

fn directory_command(information: &[u8], begun: Option<&Begun>) -> String {
    if let Some(words) = wrong_length(information, 4) {
        return words;
    }
    match (number(information), begun) {
        (0, Some(Begun::Directory(files))) => match files[..] {
            [file] => format!("the next selected file, which is file {file}"),
            _ => format!("the next selected files, which are {}", self::files(files)),
        },
        (0, _) => "the next selected files".to_string(),
        (file, _) => format!("file {file}"),
    }
}

/// An unfinished packet: what is known of it.
pub fn part(packet: &[u8]) -> Told {
    let have = packet.len();
    match kind(packet) {
        Some(kind) => told(
            kind,
            format!(
                "unfinished: {have} of {}",
                count(2 + announced(packet), "byte")
            ),
        ),
        None => Told {
            name: "a packet".to_string(),
            words: "unfinished: 1 byte".to_string(),
        },
    }
}

// ---- what the server sends

/// A packet of the server, after the station's packet of a type.
pub fn sent(packet: &[u8], after: Option<u8>) -> Told {
    let kind = kind(packet).unwrap_or(31);
    let information = &packet[2..];
    let words = match kind {
        0 => count(information.len(), "byte"),
        2 => login(information),
        4 => format!(
            "file {}, go on at byte {}",
            number(information),
            number(&information[4..])
        ),
        5 | 7 | 9 => match information.first() {
            Some(&number) => format!("{number}: {}", refusal(number, kind, after)),
            None => String::new(),
        },
        6 => "the file is accepted".to_string(),
        10 => "the download is ended without success".to_string(),
        11 => "the download is done".to_string(),
        17 => format!("{} selected", count(number(information) as usize, "file")),
        _ => String::new(),
    };
    told(kind, words)
}

fn login(information: &[u8]) -> String {
    let flags = information.get(4).copied().unwrap_or(0);
    let clock = number(information);
    match flags {
        4 => format!("clock {clock}; headers required, no saved selection, version 0"),
        _ => format!("clock {clock}; flags {flags}"),
    }
}

/// A refusal in the words of the scope paper's table, as far as they fit the packet that was answered.
pub fn refusal(number: u8, answer: u8, after: Option<u8>) -> &'static str {
    match (number, answer, after) {
        (1, 5, _) => "UPLOAD_CMD is not 8 bytes long",
        (1, _, Some(8)) => "DOWNLOAD_CMD is not 9 bytes long",
        (1, _, Some(14)) => "DIR_SHORT_CMD is not 4 bytes long",
        (1, _, Some(15)) => "DIR_LONG_CMD is not 4 bytes long",
        (1, ..) => "a wrong length",
        (2, 5, _) => "continued length differs from the first, or another session is uploading it",
        (2, ..) => "download offset beyond the file's length",
        (3, 7, _) => "upload times are used up",
        (3, ..) => "file numbers are used up",
        (4, ..) => "no such file",
        (5, ..) => "number 0 and no selected file left",
        (6, ..) => "a mandatory header item is missing",
        (7, ..) => "file does not begin AA 55",
        (8, ..) => "equation refused",
        (9, ..) => "destination already locked",
        (10, ..) => "lock destination above the file's number of destinations",
        (11, ..) => "a partial file",
        (12, ..) => "continuing a complete file",
        (13, ..) => "fewer free blocks than needed, or no free file place",
        (14, ..) => "header badly formed, or a length in it is wrong",
        (15, ..) => "header sum is wrong",
        (16, ..) => "body sum or length is wrong",
        _ => "a number that the table has not",
    }
}

/// A local refusal, which is no packet.
pub fn local_refusal(number: u8) -> &'static str {
    match number {
        32 => "output shorter than 258 bytes",
        33 => "a size or length outside the table, or a lent buffer too short",
        34 => "session number out of range, not open, or already open; the line has no effect",
        35 => "the state handed in is none that calls made",
        _ => "a number that the table has not",
    }
}

/// What is wrong in the file that UL_NAK_RESP refused by a number, and where; none where nothing is found that has this number.
pub fn nak_detail(number: u8, packet: &[u8], upload: &Upload) -> Option<String> {
    if kind(packet) == Some(0) {
        let end = upload.received as usize + packet.len() - 2;
        return Some(format!(
            "the DATA would end at byte {end}, and {} were announced",
            upload.announced
        ));
    }
    match blame(&upload.bytes, upload.announced) {
        Some((found, words)) if found == number => Some(words),
        _ => None,
    }
}
