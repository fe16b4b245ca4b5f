//! Programs that read lines and print what comes of each: the input in pieces
//! of any size, the hex digits in the lines, and the end at a line that can't
//! be read.

use std::io::{self, BufWriter, ErrorKind, Read, Write};
use std::process::ExitCode;

/// The most bytes of a line that can be read, without its newline.
pub const LINE_MOST: usize = 131_072;

const CHUNK: usize = 1 << 16;

/// What a program does with its lines.
pub trait Reader {
    /// Acts on a line of at most `LINE_MOST` bytes, without its newline, and
    /// prints what comes of it. Says whether it can be read; one that can't
    /// has no effect.
    fn read(&mut self, line: &[u8], output: &mut impl Write) -> io::Result<bool>;

    /// A line can't be read; if it is too long, its beginning is told.
    fn unreadable(&mut self, _line: &[u8]) {}

    /// Prints that the line of that number can't be read.
    fn tell_unreadable(&mut self, number: usize, output: &mut impl Write) -> io::Result<()> {
        writeln!(output, "error\t{number}")
    }

    /// Prints what stands behind all others.
    fn last(&mut self, _output: &mut impl Write) -> io::Result<()> {
        Ok(())
    }
}

/// The input as it comes in, in pieces of any size.
pub struct Feed<R> {
    pub reader: R,
    /// The beginning of the line that is not yet whole.
    line: Vec<u8>,
    /// The number of that line, from 1.
    number: usize,
    ended: bool,
}

impl<R: Reader> Feed<R> {
    pub fn new(reader: R) -> Feed<R> {
        Feed {
            reader,
            line: Vec::new(),
            number: 1,
            ended: false,
        }
    }

    /// Whether all is printed and no more input counts.
    pub fn has_ended(&self) -> bool {
        self.ended
    }

    /// Takes a piece of the input.
    pub fn feed(&mut self, bytes: &[u8], output: &mut impl Write) -> io::Result<()> {
        let mut rest = bytes;
        while !self.ended {
            let end = match rest.iter().position(|&byte| byte == b'\n') {
                Some(end) => end,
                None => return self.keep(rest, output),
            };
            self.keep(&rest[..end], output)?;
            self.line_ends(output)?;
            rest = &rest[end + 1..];
        }
        Ok(())
    }

    /// Adds to the line that is not yet whole, unless it gets too long.
    fn keep(&mut self, bytes: &[u8], output: &mut impl Write) -> io::Result<()> {
        self.line.extend(bytes);
        if self.line.len() > LINE_MOST {
            self.stop_at_line(output)?;
        }
        Ok(())
    }

    fn line_ends(&mut self, output: &mut impl Write) -> io::Result<()> {
        if self.ended {
            return Ok(());
        }
        if !self.reader.read(&self.line, output)? {
            return self.stop_at_line(output);
        }
        self.line.clear();
        self.number += 1;
        Ok(())
    }

    fn stop_at_line(&mut self, output: &mut impl Write) -> io::Result<()> {
        self.reader.unreadable(&self.line);
        self.reader.tell_unreadable(self.number, output)?;
        self.end(output)
    }

    fn end(&mut self, output: &mut impl Write) -> io::Result<()> {
        self.ended = true;
        self.reader.last(output)
    }

    /// The input has ended; a last line without its newline counts.
    pub fn finish(&mut self, output: &mut impl Write) -> io::Result<()> {
        if !self.line.is_empty() {
            self.line_ends(output)?;
        }
        if !self.ended {
            self.end(output)?;
        }
        Ok(())
    }

    /// Takes the whole of an input, and prints what is due after each piece.
    pub fn play(&mut self, input: &mut impl Read, output: &mut impl Write) -> io::Result<()> {
        let mut chunk = vec![0; CHUNK];
        while !self.ended {
            match input.read(&mut chunk) {
                Ok(0) => self.finish(output)?,
                Ok(count) => self.feed(&chunk[..count], output)?,
                Err(error) if error.kind() == ErrorKind::Interrupted => continue,
                Err(error) => return Err(error),
            }
            output.flush()?;
        }
        Ok(())
    }
}

/// Runs a program from standard input to standard output.
pub fn run_program<R: Reader>(
    name: &str,
    begin: impl FnOnce(&mut BufWriter<io::StdoutLock>) -> io::Result<Feed<R>>,
) -> ExitCode {
    let mut input = io::stdin().lock();
    let mut output = BufWriter::with_capacity(CHUNK, io::stdout().lock());
    let played = begin(&mut output).and_then(|mut feed| feed.play(&mut input, &mut output));
    match played {
        Ok(()) => ExitCode::SUCCESS,
        // Nobody reads on; that is no failure.
        Err(error) if error.kind() == ErrorKind::BrokenPipe => ExitCode::SUCCESS,
        Err(error) => {
            eprintln!("{name}: {error}");
            ExitCode::FAILURE
        }
    }
}

/// What a reader prints for a whole input, and the reader as it is left.
pub fn run_whole<R: Reader>(
    input: &[u8],
    begin: impl FnOnce(&mut Vec<u8>) -> io::Result<Feed<R>>,
) -> (Vec<u8>, R) {
    let mut output = Vec::new();
    let reader = (|| {
        let mut feed = begin(&mut output)?;
        feed.feed(input, &mut output)?;
        feed.finish(&mut output)?;
        Ok::<_, io::Error>(feed.reader)
    })()
    .expect("writing to memory does not fail");
    (output, reader)
}

/// Bytes from pairs of lower-case hex digits.
pub fn from_hex(field: &[u8]) -> Option<Vec<u8>> {
    if field.len() % 2 != 0 {
        return None;
    }
    field
        .chunks_exact(2)
        .map(|pair| Some(digit(pair[0])? << 4 | digit(pair[1])?))
        .collect()
}

fn digit(letter: u8) -> Option<u8> {
    match letter {
        b'0'..=b'9' => Some(letter - b'0'),
        b'a'..=b'f' => Some(letter - b'a' + 10),
        _ => None,
    }
}

pub fn to_hex(bytes: &[u8]) -> String {
    const DIGITS: &[u8; 16] = b"0123456789abcdef";
    let mut text = String::with_capacity(2 * bytes.len());
    for byte in bytes {
        text.push(char::from(DIGITS[usize::from(byte >> 4)]));
        text.push(char::from(DIGITS[usize::from(byte & 15)]));
    }
    text
}
