//! Plays a script on the proved library: for each line what was sent, what the server answered, what `passday` prints for it, and the state after it.
//! The questions of a class's script are no packets, and the library does not answer them: their answers are those that `classday` prints.
use std::io;

use bindings::server::{Answer, Server, Sizes};

use crate::bytes::to_hex;
use crate::names::packet_name;
use crate::programs::Home;
use crate::script::{is_question, lines, Command};
use crate::state::{self, Downlink, State};

/// The sizes of `passday`.
pub const SIZES: Sizes = Sizes {
    blocks: 128,
    files: 32,
    sessions: 4,
    most: 50,
};

/// An upload as it stood when a packet of it came.
#[derive(Clone, Debug, PartialEq, Eq)]
pub struct Upload {
    pub file: u32,
    pub received: u32,
    pub announced: u32,
    /// The bytes that have come; read only for a DATA_END.
    pub bytes: Vec<u8>,
}

/// What a packet began on the downlink.
#[derive(Clone, Debug, PartialEq, Eq)]
pub enum Begun {
    /// The download of a file.
    Download(u32),
    /// The directory of files.
    Directory(Vec<u32>),
}

/// What happens in a line, in its order.
#[derive(Clone, Debug, PartialEq, Eq)]
pub enum Event {
    /// A packet came in, with the upload that it belongs to, and what it began on the downlink.
    Heard {
        packet: Vec<u8>,
        upload: Option<Upload>,
        begun: Option<Begun>,
    },
    /// The line ends in an unfinished packet, of which so many bytes came in this line.
    Part {
        packet: Vec<u8>,
        new: usize,
    },
    /// A lost or closed link forgets an unfinished packet.
    Forgot(Vec<u8>),
    Sent(Vec<u8>),
    Closed,
    Refused(u8),
}

#[derive(Clone, Debug, PartialEq, Eq)]
pub struct Step {
    /// The line's number, from 1.
    pub line: usize,
    pub clock: u32,
    /// None for a line that can't be read.
    pub command: Option<Command>,
    pub events: Vec<Event>,
    pub printed: Vec<String>,
    pub after: State,
}

pub struct Play {
    pub steps: Vec<Step>,
    pub before: State,
    /// All that is printed.
    pub sheet: String,
    /// The number of the first line that begins with a word of `classday` alone, if one was played.
    pub asks: Option<usize>,
}

impl Play {
    /// The last line can't be read.
    pub fn is_unreadable(&self) -> bool {
        let last = self.steps.last();
        last.map_or(false, |step| step.command.is_none())
    }

    /// Takes the answers to the questions from what `classday` prints, each from the place at which it must stand.
    fn answer(&mut self, printed: &[u8]) -> Result<(), Refused> {
        let printed = String::from_utf8_lossy(printed);
        let lines: Vec<&str> = printed.lines().collect();
        let blocks = self.sheet.lines().last().unwrap_or_default().to_string();
        let mut place = 1;
        for step in &mut self.steps {
            if let Some(Command::Why(file, _)) = step.command {
                let begin = format!("why\t{file}\t");
                match lines.get(place).filter(|line| line.starts_with(&begin)) {
                    Some(line) => step.printed.push(line.to_string()),
                    None => return Err(Refused::Differs("classday", place + 1)),
                }
            }
            place += step.printed.len();
        }
        self.sheet = sheet(&self.steps, &blocks);
        Ok(())
    }
}

const FIRST: &str = "session\tpacket\tinformation";

/// All lines that are printed, with the first and the last one.
fn sheet(steps: &[Step], blocks: &str) -> String {
    let printed = steps.iter().flat_map(|step| &step.printed);
    let lines = std::iter::once(FIRST).chain(printed.map(String::as_str));
    let whole = lines.chain(std::iter::once(blocks));
    whole.flat_map(|line| [line, "\n"]).collect()
}

struct Player {
    server: Server,
    clock: u32,
    events: Vec<Event>,
    printed: Vec<String>,
}

impl Player {
    /// Notes an answer and prints it as `passday` does. False where the link is gone.
    fn note(&mut self, session: u32, answer: &Answer) -> bool {
        match answer {
            Answer::Quiet(_) => return true,
            Answer::Sent(_, packet) => {
                let kind = packet_name(packet[1] & 31);
                self.printed
                    .push(format!("{session}\t{kind}\t{}", to_hex(&packet[2..])));
                self.events.push(Event::Sent(packet.clone()));
                return true;
            }
            Answer::Closed(_) => {
                self.printed.push(format!("{session}\tclosed"));
                self.events.push(Event::Closed);
            }
            Answer::Refused(number) => {
                self.printed.push(format!("{session}\trefused\t{number}"));
                self.events.push(Event::Refused(*number));
            }
        }
        false
    }

    fn is_session(&self, session: u32) -> bool {
        (1..=state::sessions(&self.server)).contains(&(session as usize))
    }

    /// Hands over what is left of a line by one call, and notes which packet it ended.
    fn receive(&mut self, session: u32, rest: &[u8]) -> Answer {
        let at = session as usize;
        if !self.is_session(session) {
            return self.server.receive(at, self.clock, rest);
        }
        let mut packet = state::held(&self.server, at).to_vec();
        let began = packet.len();
        let upload = self.upload(at, packet.iter().chain(rest).nth(1).copied());
        let answer = self.server.receive(at, self.clock, rest);
        packet.extend(&rest[..answer.taken()]);
        match answer {
            Answer::Refused(_) => {}
            _ if packet.is_empty() => {}
            Answer::Quiet(taken) if !state::held(&self.server, at).is_empty() => {
                debug_assert_eq!(packet.len(), began + taken);
                self.events.push(Event::Part { packet, new: taken });
            }
            _ => {
                let begun = self.begun(at, &packet, &answer);
                self.events.push(Event::Heard {
                    packet,
                    upload,
                    begun,
                });
            }
        }
        answer
    }

    /// The upload that is under way, where the packet that comes is DATA or DATA_END.
    fn upload(&self, session: usize, second: Option<u8>) -> Option<Upload> {
        let kind = second.map_or(31, |byte| byte & 31);
        let (file, received, announced, place) = state::receiving(&self.server, session)?;
        let bytes = match kind {
            0 => Vec::new(),
            1 => state::contents(&self.server, place),
            _ => return None,
        };
        Some(Upload {
            file,
            received,
            announced,
            bytes,
        })
    }

    /// The download or directory that this packet began.
    fn begun(&self, session: usize, packet: &[u8], answer: &Answer) -> Option<Begun> {
        match (
            packet.get(1).map(|byte| byte & 31),
            answer,
            state::downlink(&self.server, session),
        ) {
            (Some(8), Answer::Quiet(_), Downlink::Sending { file }) => Some(Begun::Download(file)),
            (Some(14 | 15), Answer::Quiet(_), Downlink::Listing { files, .. }) => {
                Some(Begun::Directory(files))
            }
            _ => None,
        }
    }

    /// Hands over all bytes, then asks until nothing is due.
    fn rx(&mut self, session: u32, bytes: &[u8]) {
        let mut rest = bytes;
        loop {
            let answer = self.receive(session, rest);
            if !self.note(session, &answer) {
                return;
            }
            rest = &rest[answer.taken()..];
            if rest.is_empty() {
                break;
            }
        }
        loop {
            match self.server.request(session as usize) {
                Answer::Quiet(_) => return,
                answer => drop(self.note(session, &answer)),
            }
        }
    }

    fn lose(&mut self, session: u32) {
        let forgot = match self.is_session(session) {
            true => state::held(&self.server, session as usize).to_vec(),
            false => Vec::new(),
        };
        let answer = self.server.lose(session as usize);
        if self.note(session, &answer) && !forgot.is_empty() {
            self.events.push(Event::Forgot(forgot));
        }
    }

    /// Acts on a line; the state before it saves the reading of titles.
    fn step(&mut self, number: usize, line: &[u8], before: &State) -> Step {
        let command = Command::read(line);
        match &command {
            Some(command) => self.run(command),
            None => self.printed.push(format!("error\t{number}")),
        }
        Step {
            line: number,
            clock: self.clock,
            command,
            events: std::mem::take(&mut self.events),
            printed: std::mem::take(&mut self.printed),
            after: state::read(&self.server, before),
        }
    }

    fn run(&mut self, command: &Command) {
        match command {
            Command::Time(clock) => self.clock = *clock,
            Command::Open(session) => {
                let answer = self.server.open(*session as usize, self.clock);
                self.note(*session, &answer);
            }
            Command::Drop(session) => self.lose(*session),
            Command::Rx(session, bytes) => self.rx(*session, bytes),
            Command::Why(..) => {}
        }
    }
}

/// Plays a script on a server with these sizes.
pub fn play(script: &[u8], sizes: Sizes) -> Result<Play, u8> {
    let server = Server::new(sizes)?;
    let before = state::read(&server, &State::default());
    let mut player = Player {
        server,
        clock: 0,
        events: Vec::new(),
        printed: Vec::new(),
    };
    let mut steps: Vec<Step> = Vec::new();
    let mut asks = None;
    for (line, number) in lines(script).into_iter().zip(1..) {
        if is_question(line) {
            asks = asks.or(Some(number));
        }
        let step = player.step(
            number,
            line,
            steps.last().map_or(&before, |step| &step.after),
        );
        let is_last = step.command.is_none();
        steps.push(step);
        if is_last {
            break;
        }
    }
    let (free, all) = player.server.free()?;
    Ok(Play {
        sheet: sheet(&steps, &format!("blocks\t{free}\t{}", all - free)),
        steps,
        before,
        asks,
    })
}

/// Why a script is not shown.
pub enum Refused {
    /// A program or a file failed.
    Failed(io::Error),
    /// Another line than this program prints.
    Differs(&'static str, usize),
    /// A line asks why, which is answered for the MAXSEL of `classday` alone.
    Asks(usize),
    Size(u8),
}

impl From<io::Error> for Refused {
    fn from(error: io::Error) -> Refused {
        Refused::Failed(error)
    }
}

/// Plays a script, with another MAXSEL than `passday`'s if one is named; else the sheet must be what `passday` prints, byte for byte, or for a
/// class's script what `classday` prints.
pub fn checked(script: &[u8], maxsel: Option<usize>, home: &Home) -> Result<Play, Refused> {
    let sizes = Sizes {
        most: maxsel.unwrap_or(SIZES.most),
        ..SIZES
    };
    let mut played = play(script, sizes).map_err(Refused::Size)?;
    match (maxsel, played.asks) {
        (Some(_), Some(line)) => return Err(Refused::Asks(line)),
        (Some(_), None) => {}
        (None, Some(_)) => {
            let printed = home.run("classday", script)?;
            played.answer(&printed)?;
            compare(&played, "classday", &printed)?;
        }
        (None, None) => compare(&played, "passday", &home.run("passday", script)?)?,
    }
    Ok(played)
}

/// Plays a script of `passday`'s words alone; the sheet must be what `passday` prints.
pub fn checked_by_passday(script: &[u8], home: &Home) -> Result<Play, Refused> {
    let played = play(script, SIZES).map_err(Refused::Size)?;
    compare(&played, "passday", &home.run("passday", script)?)?;
    Ok(played)
}

/// What was played is what a program prints.
fn compare(played: &Play, program: &'static str, printed: &[u8]) -> Result<(), Refused> {
    if printed == played.sheet.as_bytes() {
        return Ok(());
    }
    let lines = printed
        .split(|&byte| byte == b'\n')
        .zip(played.sheet.split('\n'));
    let alike = lines.take_while(|(a, b)| *a == b.as_bytes()).count();
    Err(Refused::Differs(program, alike + 1))
}
