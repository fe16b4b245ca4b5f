//! The script program: tab-parted lines that open, drop and feed links, and
//! the lines printed for them.

use std::io::{self, Write};

use crate::lines::{from_hex, run_whole, Feed, Reader};
use crate::packet::Packet;
use crate::server::{Answer, Server, Sizes, OUTPUT};

pub use crate::lines::{to_hex, LINE_MOST};

/// A line that can be read.
#[derive(Clone, Debug, PartialEq, Eq)]
pub enum Line {
    Time(u32),
    Open(u32),
    Drop(u32),
    Rx(u32, Vec<u8>),
}

impl Line {
    /// The line without its newline, or none if it can't be read.
    pub fn parse(line: &[u8]) -> Option<Line> {
        if line.len() > LINE_MOST {
            return None;
        }
        let mut fields = line.split(|&byte| byte == b'\t');
        let command = fields.next()?;
        let number = decimal(fields.next()?)?;
        let line = match command {
            b"time" => Line::Time(number),
            b"open" => Line::Open(number),
            b"drop" => Line::Drop(number),
            b"rx" => Line::Rx(number, from_hex(fields.next()?)?),
            _ => return None,
        };
        match fields.next() {
            None => Some(line),
            Some(_) => None,
        }
    }
}

impl std::fmt::Display for Line {
    fn fmt(&self, formatter: &mut std::fmt::Formatter) -> std::fmt::Result {
        match self {
            Line::Time(clock) => write!(formatter, "time\t{clock}"),
            Line::Open(session) => write!(formatter, "open\t{session}"),
            Line::Drop(session) => write!(formatter, "drop\t{session}"),
            Line::Rx(session, bytes) => write!(formatter, "rx\t{session}\t{}", to_hex(bytes)),
        }
    }
}

/// A number of one or more decimal digits that fits 32 bits.
pub(crate) fn decimal(field: &[u8]) -> Option<u32> {
    if field.is_empty() {
        return None;
    }
    field.iter().try_fold(0u32, |value, digit| match digit {
        b'0'..=b'9' => value.checked_mul(10)?.checked_add(u32::from(digit - b'0')),
        _ => None,
    })
}

/// A call that a line leads to.
#[derive(Clone, Copy, Debug)]
pub enum Call<'a> {
    Open(u32),
    Lose(u32),
    Receive(u32, &'a [u8]),
    Request(u32),
}

/// One who looks on while a script runs.
pub trait Watch {
    /// A call is about to be made on the server as it is.
    fn before(&mut self, _server: &Server, _clock: u32, _call: Call) {}
    /// The call was made and answered.
    fn after(&mut self, _server: &Server, _call: Call, _answer: &Answer) {}
    /// A line can't be read.
    fn unreadable(&mut self, _line: &[u8]) {}
}

/// Nobody looks on.
pub struct Unwatched;

impl Watch for Unwatched {}

/// The server with the script's clock.
pub struct Driver<W> {
    pub server: Server,
    pub clock: u32,
    pub watch: W,
    room: [u8; OUTPUT],
}

impl<W: Watch> Driver<W> {
    pub fn new(watch: W) -> Driver<W> {
        Driver {
            server: Server::new(Sizes::PROGRAM).expect("sizes of the table"),
            clock: 0,
            watch,
            room: [0; OUTPUT],
        }
    }

    /// Acts on a line and prints what comes of it.
    pub fn run(&mut self, line: &Line, output: &mut impl Write) -> io::Result<()> {
        match line {
            Line::Time(clock) => {
                self.clock = *clock;
                Ok(())
            }
            Line::Open(session) => {
                let answer = self.call(Call::Open(*session));
                print(*session, &answer, output)
            }
            Line::Drop(session) => {
                let answer = self.call(Call::Lose(*session));
                print(*session, &answer, output)
            }
            Line::Rx(session, bytes) => {
                if self.hand_over(*session, bytes, output)? {
                    self.pump(*session, output)?;
                }
                Ok(())
            }
        }
    }

    fn call(&mut self, call: Call) -> Answer {
        self.watch.before(&self.server, self.clock, call);
        let room = &mut self.room;
        let answer = match call {
            Call::Open(session) => self.server.open(session, self.clock, room),
            Call::Lose(session) => self.server.lose(session),
            Call::Receive(session, bytes) => self.server.receive(session, self.clock, bytes, room),
            Call::Request(session) => self.server.request(session, room),
        };
        self.watch.after(&self.server, call, &answer);
        answer
    }

    /// Hands over all bytes of a line, at least by one call. Says whether the
    /// link is still there.
    fn hand_over(
        &mut self,
        session: u32,
        bytes: &[u8],
        output: &mut impl Write,
    ) -> io::Result<bool> {
        let mut rest = bytes;
        loop {
            let answer = self.call(Call::Receive(session, rest));
            print(session, &answer, output)?;
            match answer {
                Answer::Refused(_) | Answer::Closed(_) => return Ok(false),
                Answer::Quiet(took) | Answer::Sent(took, _) => rest = &rest[took..],
            }
            if rest.is_empty() {
                return Ok(true);
            }
        }
    }

    /// Requests until nothing is due.
    fn pump(&mut self, session: u32, output: &mut impl Write) -> io::Result<()> {
        loop {
            match self.call(Call::Request(session)) {
                Answer::Quiet(_) => return Ok(()),
                answer => print(session, &answer, output)?,
            }
        }
    }
}

fn print(session: u32, answer: &Answer, output: &mut impl Write) -> io::Result<()> {
    match answer {
        Answer::Refused(number) => writeln!(output, "{session}\trefused\t{number}"),
        Answer::Closed(_) => writeln!(output, "{session}\tclosed"),
        Answer::Quiet(_) => Ok(()),
        Answer::Sent(_, Packet { kind, information }) => {
            writeln!(
                output,
                "{session}\t{}\t{}",
                kind.name(),
                to_hex(information)
            )
        }
    }
}

impl<W: Watch> Reader for Driver<W> {
    fn read(&mut self, line: &[u8], output: &mut impl Write) -> io::Result<bool> {
        match Line::parse(line) {
            Some(line) => self.run(&line, output).map(|()| true),
            None => Ok(false),
        }
    }

    fn unreadable(&mut self, line: &[u8]) {
        self.watch.unreadable(line);
    }

    fn last(&mut self, output: &mut impl Write) -> io::Result<()> {
        let store = &self.server.store;
        writeln!(
            output,
            "blocks\t{}\t{}",
            store.free_blocks(),
            store.held_blocks()
        )
    }
}

/// A script as it comes in.
pub type Script<W> = Feed<Driver<W>>;

impl<W: Watch> Script<W> {
    /// Prints the first line.
    pub fn begin(watch: W, output: &mut impl Write) -> io::Result<Script<W>> {
        writeln!(output, "session\tpacket\tinformation")?;
        Ok(Feed::new(Driver::new(watch)))
    }
}

/// Runs a whole script with one who looks on.
pub fn run_watched<W: Watch>(input: &[u8], watch: W) -> (Vec<u8>, Driver<W>) {
    run_whole(input, |output| Script::begin(watch, output))
}

/// What the program prints for a whole script.
pub fn run(input: &[u8]) -> Vec<u8> {
    run_watched(input, Unwatched).0
}
