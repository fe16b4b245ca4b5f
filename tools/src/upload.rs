//! The words of an upload: the file, and how it is sent.
use std::collections::HashMap;
use std::fs;
use std::path::Path;

use crate::bytes::{numbered, packet, quoted};
use crate::draft::{Draft, Value};
use crate::lesson::{decimal, fault, hex, Fault, Token, Words};
use crate::names::*;

/// How a file is sent.
#[derive(Clone, Debug, Default, PartialEq, Eq)]
pub struct Manner {
    pub announce: Option<u32>,
    /// Only so many bytes of the file are sent.
    pub send: Option<usize>,
    /// The bytes of a DATA packet.
    pub pieces: Option<usize>,
    /// The first byte that is sent.
    pub from: Option<usize>,
    /// The link is lost in this DATA packet, counted from 1, after so many bytes of it; the column is for what is wrong in it.
    pub cut: Option<(usize, usize, usize)>,
    pub without_end: bool,
}

/// What stands around an upload: the files by their names, and the folder from which bodies are read.
pub struct Around<'a> {
    pub files: &'a HashMap<String, Draft>,
    pub folder: &'a Path,
}

/// The packets of an upload, and where the link is lost in them: the packet's index, and how many of its bytes are sent.
pub struct Upload {
    pub packets: Vec<Vec<u8>>,
    pub cut: Option<(usize, usize)>,
}

/// Reads the words of a file and of how it is sent, to the line's end.
pub fn read(words: &mut Words, around: &Around, continued: bool) -> Result<(Draft, Manner), Fault> {
    let mut draft = Draft::default();
    let mut manner = Manner::default();
    while let Some(token) = words.token()? {
        let word = match token {
            Token::Word(word) => word,
            Token::Text(_) => {
                return fault(
                    words.column,
                    "text where a word belongs: which item has this text?",
                )
            }
        };
        if file_word(&word, words, around, &mut draft)?
            || manner_word(&word, words, continued, &mut manner)?
        {
            continue;
        }
        return fault(words.column, unknown(&word));
    }
    if draft.header_length() > 65_535 {
        return fault(1, "the header is too long: at most 65535 bytes");
    }
    Ok((draft, manner))
}

fn unknown(word: &str) -> String {
    format!("'{word}' is no item and no word of an upload (docs/LESSONS.md lists them)")
}

/// Reads the words of a file alone.
pub fn read_file(words: &mut Words, around: &Around) -> Result<Draft, Fault> {
    let begin = words.next_column();
    let (draft, manner) = read(words, around, false)?;
    if manner != Manner::default() {
        return fault(begin, "how a file is sent (pieces, announce, send, cut, without end) belongs in the line of its upload");
    }
    Ok(draft)
}

/// A word that says what the file is; false where it is none of these.
fn file_word(
    word: &str,
    words: &mut Words,
    around: &Around,
    draft: &mut Draft,
) -> Result<bool, Fault> {
    match word {
        "file" => *draft = named(words, around, draft)?,
        "body" => draft.body = body(words, around)?,
        "damage" => match words.word("header-sum or body-sum")?.as_str() {
            "header-sum" => draft.wrong_header_sum = true,
            "body-sum" => draft.wrong_body_sum = true,
            other => {
                return fault(
                    words.column,
                    format!("'{other}' where header-sum or body-sum belongs"),
                )
            }
        },
        "leave-out" => {
            let id = mandatory(words)?;
            draft.left_out.push(id);
        }
        "add" => {
            let id = item(words)?;
            let value = value(words, id)?;
            draft.added.push((id, value));
        }
        _ => match id_of_word(word) {
            Some(id) => set(draft, id, words)?,
            None => return Ok(false),
        },
    }
    Ok(true)
}

/// The file of an earlier line; it must be the first that is said of this one.
fn named(words: &mut Words, around: &Around, draft: &Draft) -> Result<Draft, Fault> {
    let column = words.column;
    let name = words.word("the name of a file")?;
    if *draft != Draft::default() {
        return fault(
            column,
            "'file' belongs before all else that is said of the file",
        );
    }
    match around.files.get(&name) {
        Some(file) => Ok(file.clone()),
        None => fault(
            words.column,
            format!("no line before this one says 'file {name} ..'"),
        ),
    }
}

/// # and four hex digits, or a name.
fn id_of_word(word: &str) -> Option<u16> {
    match word.strip_prefix('#') {
        Some(digits)
            if digits.len() == 4 && digits.bytes().all(|byte| byte.is_ascii_hexdigit()) =>
        {
            u16::from_str_radix(digits, 16).ok()
        }
        Some(_) => None,
        None => id_of(word),
    }
}

fn item(words: &mut Words) -> Result<u16, Fault> {
    let word = words.word("an item")?;
    match id_of_word(&word) {
        Some(id) => Ok(id),
        None => fault(words.column, format!("'{word}' is no item")),
    }
}

fn mandatory(words: &mut Words) -> Result<u16, Fault> {
    let id = item(words)?;
    match listed_length(id) {
        Some(_) => Ok(id),
        None => fault(
            words.column,
            "only one of the twelve mandatory items can be left out",
        ),
    }
}

fn set(draft: &mut Draft, id: u16, words: &mut Words) -> Result<(), Fault> {
    let column = words.column;
    let value = value(words, id)?;
    match listed_length(id) {
        None => draft.others.push((id, value)),
        Some(_) => {
            if draft.left_out.contains(&id) {
                return fault(column, format!("{} is left out in this line", name_of(id)));
            }
            draft.given.retain(|(given, _)| *given != id);
            draft.given.push((id, value));
        }
    }
    Ok(())
}

/// Text, a number with or without its width, or bytes in hex.
fn value(words: &mut Words, id: u16) -> Result<Value, Fault> {
    let wanted = "text in quotes, a number or 'bytes'";
    let value = match words.token()? {
        None => {
            return fault(
                words.column,
                format!("the line ends where {wanted} belongs"),
            )
        }
        Some(Token::Text(text)) => Value::Text(text),
        Some(Token::Word(word)) if word == "bytes" => Value::Bytes(bytes(words)?),
        Some(Token::Word(word)) if word == "number" => {
            let value = words.number("a number")?;
            number(words, value)?
        }
        Some(Token::Word(word)) => {
            let value = decimal(&word, words.column, wanted)?;
            number(words, value)?
        }
    };
    check_length(&value, id, words.column)?;
    Ok(value)
}

fn check_length(value: &Value, id: u16, column: usize) -> Result<(), Fault> {
    let length = value.bytes(id).len();
    if length > 255 {
        return fault(column, "an item has at most 255 bytes");
    }
    match (value, listed_length(id)) {
        (Value::Bytes(_), _) | (_, None) => Ok(()),
        (_, Some(listed)) if listed == length => Ok(()),
        // 'width' asks for another length on purpose
        (Value::Number(_, Some(_)), _) => Ok(()),
        (_, Some(listed)) => fault(
            column,
            format!(
                "{} has {listed} byte(s); 'bytes' sends it with another length",
                name_of(id)
            ),
        ),
    }
}

/// The width of a number, if it is said.
fn number(words: &mut Words, value: u32) -> Result<Value, Fault> {
    let mut ahead = words.clone();
    match ahead.token() {
        Ok(Some(Token::Word(word))) if word == "width" => *words = ahead,
        _ => return Ok(Value::Number(value, None)),
    }
    let width = words.number("1, 2 or 4")?;
    if !matches!(width, 1 | 2 | 4) || (width < 4 && value >> (8 * width) != 0) {
        return fault(
            words.column,
            "the width is 1, 2 or 4 bytes, and the number must have room in it",
        );
    }
    Ok(Value::Number(value, Some(width as usize)))
}

/// Bytes in hex: a word, or with blanks in quotes.
pub fn bytes(words: &mut Words) -> Result<Vec<u8>, Fault> {
    match words.token()? {
        None => fault(words.column, "the line ends where hex digits belong"),
        Some(Token::Word(word)) => hex(word.as_bytes(), words.column),
        Some(Token::Text(text)) => hex(&text, words.column + 1),
    }
}

fn body(words: &mut Words, around: &Around) -> Result<Vec<u8>, Fault> {
    match words.token()? {
        Some(Token::Text(text)) => Ok(text),
        Some(Token::Word(word)) if word == "bytes" => bytes(words),
        Some(Token::Word(word)) if word == "file" => match words.token()? {
            Some(Token::Text(name)) => body_file(&name, words.column, around),
            _ => fault(words.column, "the name of the body's file belongs here, in quotes"),
        },
        _ => fault(words.column, "behind 'body' stands text in quotes, 'bytes' and hex digits, or 'file' and a name in quotes"),
    }
}

fn body_file(name: &[u8], column: usize, around: &Around) -> Result<Vec<u8>, Fault> {
    let path = around.folder.join(&*String::from_utf8_lossy(name));
    let told = quoted(name);
    match fs::read(path) {
        Ok(bytes) if bytes.len() <= 1 << 20 => Ok(bytes),
        Ok(_) => fault(
            column,
            format!("the file {told} is too long for a body: at most 1048576 bytes"),
        ),
        Err(error) => fault(
            column,
            format!("the file {told} can't be read: {}", error.kind()),
        ),
    }
}

/// A word that says how the file is sent; false where it is none of these.
fn manner_word(
    word: &str,
    words: &mut Words,
    continued: bool,
    manner: &mut Manner,
) -> Result<bool, Fault> {
    match word {
        "pieces" => match words.number("the bytes of a DATA packet")? {
            pieces @ 1..=256 => manner.pieces = Some(pieces as usize),
            _ => return fault(words.column, "a DATA packet has 1 to 256 bytes"),
        },
        "announce" => manner.announce = Some(words.number("the announced length")?),
        "send" => manner.send = Some(words.number("a number of bytes")? as usize),
        "from" if continued => manner.from = Some(words.number("an offset")? as usize),
        "from" => {
            return fault(
                words.column,
                "'from' belongs to 'continue': a new file is sent from its first byte",
            )
        }
        "without" => match words.word("'end'")?.as_str() {
            "end" => manner.without_end = true,
            other => return fault(words.column, format!("'{other}' where 'end' belongs")),
        },
        "cut" => manner.cut = Some(cut(words)?),
        _ => return Ok(false),
    }
    Ok(true)
}

/// `cut data 2 after 10`
fn cut(words: &mut Words) -> Result<(usize, usize, usize), Fault> {
    let column = words.column;
    keyword(words, "data")?;
    let which = words.number("the number of a DATA packet")?;
    if which == 0 {
        return fault(words.column, "DATA packets are counted from 1");
    }
    keyword(words, "after")?;
    let after = words.number("a number of bytes")?;
    Ok((which as usize, after as usize, column))
}

fn keyword(words: &mut Words, wanted: &str) -> Result<(), Fault> {
    let word = words.word(&format!("'{wanted}'"))?;
    if word == wanted {
        return Ok(());
    }
    fault(words.column, format!("'{word}' where '{wanted}' belongs"))
}

/// The packets: UPLOAD_CMD, DATA, DATA_END.
pub fn packets(number: u32, draft: &Draft, manner: &Manner) -> Result<Upload, Fault> {
    let file = draft.bytes();
    let mut command = numbered(number, 4);
    command.extend(numbered(manner.announce.unwrap_or(file.len() as u32), 4));
    let mut packets = vec![packet(3, &command)];
    let from = manner.from.unwrap_or(0);
    if from > file.len() {
        return fault(
            1,
            format!(
                "the file has {} bytes, so it can't be sent from {from}",
                file.len()
            ),
        );
    }
    let rest = &file[from..];
    let sent = manner.send.unwrap_or(rest.len()).min(rest.len());
    for piece in rest[..sent].chunks(manner.pieces.unwrap_or(256)) {
        packets.push(packet(0, piece));
    }
    let cut = cut_in(&packets, manner)?;
    if !manner.without_end {
        packets.push(packet(1, &[]));
    }
    Ok(Upload { packets, cut })
}

/// Where the link is lost in UPLOAD_CMD and DATA packets.
fn cut_in(packets: &[Vec<u8>], manner: &Manner) -> Result<Option<(usize, usize)>, Fault> {
    let (which, after, column) = match manner.cut {
        Some(cut) => cut,
        None => return Ok(None),
    };
    match packets.get(which) {
        Some(packet) if after <= packet.len() => Ok(Some((which, after))),
        Some(packet) => fault(
            column,
            format!(
                "this packet has {} bytes, the first two counted",
                packet.len()
            ),
        ),
        None => fault(
            column,
            format!("only {} DATA packet(s) are sent", packets.len() - 1),
        ),
    }
}
