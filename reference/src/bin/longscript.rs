//! Prints a long script for measuring, until so many bytes are printed:
//! uploads one after the other, each with its bytes in DATA packets. The files
//! have no header, so each is discarded at DATA_END and the store never fills.
//! A script of a class begins with a file that stays, and selects and
//! downloads it between the uploads.

use std::io::{self, BufWriter, Write};
use std::process::ExitCode;

use reference::draft::Draft;
use reference::packet::{Packet, Type};
use reference::script::to_hex;

const USAGE: &str = "usage: longscript BYTES (class | upload | packet | PIECE)
  class    uploads, each one line, and selections and downloads between them
  upload   each upload is one line
  packet   each packet is a line
  PIECE    the bytes in lines of so many bytes";

/// The bytes of each file: most of the program's store.
const FILE: usize = 30_000;

/// How an upload's bytes are parted into lines.
#[derive(Clone, Copy)]
enum Lines {
    Class,
    Upload,
    Packet,
    Piece(usize),
}

impl Lines {
    fn of(word: &str) -> Option<Lines> {
        match word {
            "class" => Some(Lines::Class),
            "upload" => Some(Lines::Upload),
            "packet" => Some(Lines::Packet),
            _ => word.parse().ok().filter(|&size| size > 0).map(Lines::Piece),
        }
    }

    fn part(self, packets: &[Vec<u8>]) -> Vec<Vec<u8>> {
        match self {
            Lines::Class => {
                let mut lines = vec![packets.concat()];
                lines.extend(download());
                lines
            }
            Lines::Upload => vec![packets.concat()],
            Lines::Packet => packets.to_vec(),
            Lines::Piece(size) => packets.concat().chunks(size).map(<[u8]>::to_vec).collect(),
        }
    }
}

/// SELECT_CMD for files with file_size above 0, DOWNLOAD_CMD for the first of
/// them, DL_ACK_CMD.
fn download() -> Vec<Vec<u8>> {
    let greater = [0x90, 4, 0, 4, 0, 0, 0, 0];
    vec![
        Packet::new(Type::SelectCmd, &greater).bytes(),
        Packet::new(Type::DownloadCmd, &[0; 9]).bytes(),
        Packet::new(Type::DlAckCmd, &[0]).bytes(),
    ]
}

/// Bytes without a header.
fn plain() -> Vec<u8> {
    (0..FILE).map(|index| (index * 7 % 251) as u8).collect()
}

/// UPLOAD_CMD for a new file, its bytes, DATA_END.
fn upload(file: &[u8]) -> Vec<Vec<u8>> {
    let mut command = vec![0; 4];
    command.extend_from_slice(&(file.len() as u32).to_le_bytes());
    let mut packets = vec![Packet::new(Type::UploadCmd, &command).bytes()];
    packets.extend(
        file.chunks(256)
            .map(|part| Packet::new(Type::Data, part).bytes()),
    );
    packets.push(Packet::new(Type::DataEnd, &[]).bytes());
    packets
}

/// Lines of session 1 with these bytes.
fn text_of(parts: &[Vec<u8>]) -> String {
    let lines = parts
        .iter()
        .map(|part| format!("rx\t1\t{}\n", to_hex(part)));
    lines.collect()
}

fn print(bytes: usize, lines: Lines) -> io::Result<()> {
    let text = text_of(&lines.part(&upload(&plain())));
    let mut output = BufWriter::new(io::stdout().lock());
    output.write_all(b"time\t1\nopen\t1\n")?;
    if let Lines::Class = lines {
        let file = Draft::new().with_body(&[65; 2000]).bytes();
        output.write_all(text_of(&upload(&file)).as_bytes())?;
    }
    let mut printed = 0;
    while printed < bytes {
        output.write_all(text.as_bytes())?;
        printed += text.len();
    }
    output.flush()
}

/// The bytes to print and the lines that they stand in.
fn asked(arguments: &[String]) -> Option<(usize, Lines)> {
    match arguments {
        [bytes, word] => Some((bytes.parse().ok()?, Lines::of(word)?)),
        _ => None,
    }
}

fn main() -> ExitCode {
    let arguments: Vec<String> = std::env::args().skip(1).collect();
    let (bytes, lines) = match asked(&arguments) {
        Some(asked) => asked,
        None => {
            eprintln!("{USAGE}");
            return ExitCode::from(2);
        }
    };
    match print(bytes, lines) {
        Ok(()) => ExitCode::SUCCESS,
        Err(error) if error.kind() == io::ErrorKind::BrokenPipe => ExitCode::SUCCESS,
        Err(error) => {
            eprintln!("longscript: {error}");
            ExitCode::FAILURE
        }
    }
}
