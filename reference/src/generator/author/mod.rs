//! The author of a script: it writes lines and runs them. The beginning and the
//! end of a script stand in `ends`, the packets in `uplink` and `downlink`.

mod downlink;
mod ends;
mod uplink;

use std::collections::BTreeMap;
use std::io;

use super::pieces::stray;
use super::plans::Plan;
use super::themes::{Prelude, Theme};
use super::Story;
use crate::packet::{Packet, Type};
use crate::random::Random;
use crate::script::{Driver, Line, Unwatched};
use crate::server::{Downlink, Server, Uplink, OUTPUT};

pub(super) struct Author {
    random: Random,
    theme: Theme,
    driver: Driver<Unwatched>,
    lines: Vec<Vec<u8>>,
    ends_whole: bool,
    plans: BTreeMap<u32, Plan>,
    /// What each session means to upload next.
    meant: [Option<Plan>; 4],
    /// The bytes that each session has still to send.
    outbox: [Vec<u8>; 4],
}

fn packet(kind: Type, information: &[u8]) -> Vec<u8> {
    Packet::new(kind, information).bytes()
}

fn two_numbers(first: u32, second: u32) -> Vec<u8> {
    [first.to_le_bytes(), second.to_le_bytes()].concat()
}

impl Author {
    pub(super) fn new(random: Random, theme: Theme) -> Author {
        Author {
            random,
            theme,
            driver: Driver::new(Unwatched),
            lines: Vec::new(),
            ends_whole: true,
            plans: BTreeMap::new(),
            meant: Default::default(),
            outbox: Default::default(),
        }
    }

    pub(super) fn story(self) -> Story {
        Story {
            theme: self.theme.name,
            lines: self.lines,
            ends_whole: self.ends_whole,
            plans: self.plans,
        }
    }

    fn chance(&mut self, of_100: usize) -> bool {
        self.random.chance(of_100, 100)
    }

    /// Writes a line that can be read and runs it.
    fn write(&mut self, line: Line) {
        let mut text = line.to_string();
        if self.random.chance(1, 150) {
            // Leading zeros mean nothing.
            text = text.replacen('\t', "\t00", 1);
        }
        self.lines.push(text.into_bytes());
        self.driver
            .run(&line, &mut io::sink())
            .expect("nothing is written");
        self.note_plans();
    }

    /// Keeps what is meant under the numbers that the sessions were given.
    fn note_plans(&mut self) {
        for (index, session) in self.driver.server.sessions.iter().enumerate() {
            let uplink = session.as_ref().map(|session| session.uplink);
            if let Some(Uplink::Receiving { place, .. }) = uplink {
                let file = self.driver.server.store.file(place);
                if let Some(plan) = &self.meant[index] {
                    if plan.announced == file.length {
                        self.plans
                            .entry(file.number)
                            .or_insert_with(|| plan.clone());
                    }
                }
            }
        }
    }

    fn is_open(&self, index: usize) -> bool {
        self.driver.server.sessions[index].is_some()
    }

    // One step.

    /// As many steps as the theme wishes.
    pub(super) fn steps(&mut self) {
        let (least, most) = (self.theme.least_steps, self.theme.most_steps);
        for _ in 0..self.random.between(least, most) {
            self.step();
        }
    }

    pub(super) fn step(&mut self) {
        if self.chance(self.theme.clock) {
            self.turn_clock();
        }
        if self.chance(self.theme.odd) {
            return self.odd_session();
        }
        let index = self.random.below(self.theme.sessions);
        let session = index as u32 + 1;
        if !self.is_open(index) {
            return self.on_closed(session);
        }
        if self.chance(self.theme.lost) {
            // Mostly what was not sent is forgotten with the link.
            if self.random.chance(9, 10) {
                self.outbox[index].clear();
            }
            return self.write(Line::Drop(session));
        }
        if self.outbox[index].is_empty() {
            self.outbox[index] = self.compose(index);
        }
        let piece = self.piece(index);
        self.write(Line::Rx(session, piece));
        if !self.is_open(index) {
            self.outbox[index].clear();
        }
    }

    /// What of the bytes to be sent goes into the next line.
    fn piece(&mut self, index: usize) -> Vec<u8> {
        let most = self.outbox[index].len();
        let length = if !self.chance(self.theme.cut) {
            most
        } else {
            match self.random.below(4) {
                0 => 1.min(most),
                1 => 3.min(most),
                2 => most.saturating_sub(1),
                _ => self.random.between(0, most),
            }
        };
        self.outbox[index].drain(..length).collect()
    }

    fn turn_clock(&mut self) {
        let clock = self.driver.clock;
        let clock = match self.random.below(6) {
            0 => clock.saturating_sub(self.random.below(100) as u32),
            1 => clock,
            2 if self.theme.prelude == Prelude::LateClock => u32::MAX,
            3 => self.random.below(3) as u32,
            _ => clock.saturating_add(self.random.below(50) as u32),
        };
        self.write(Line::Time(clock));
    }

    /// Calls on sessions that do not exist, or are open or closed already.
    fn odd_session(&mut self) {
        let session = *self.random.pick(&[0, 1, 2, 3, 4, 5, 17, u32::MAX]);
        let line = match self.random.below(3) {
            0 => Line::Open(session),
            1 if self.random.chance(1, 2) => Line::Drop(session),
            _ => {
                let length = self.random.below(4);
                Line::Rx(session, self.random.bytes(length))
            }
        };
        self.write(line);
    }

    fn on_closed(&mut self, session: u32) {
        let line = match self.random.below(12) {
            _ if self.theme.odd == 0 => Line::Open(session),
            0 => Line::Drop(session),
            1 => Line::Rx(session, vec![0]),
            2 => Line::Rx(session, Vec::new()),
            _ => Line::Open(session),
        };
        self.write(line);
    }

    // Packets.

    /// The next packets of a session. Those after the first are chosen on a
    /// server that has heard the ones before.
    fn compose(&mut self, index: usize) -> Vec<u8> {
        if self.chance(self.theme.moment) {
            return self.moment(index);
        }
        let mut server = self.driver.server.clone();
        let mut bytes = self.choose(&server, index);
        let mut heard = 0;
        while bytes.len() < 1500 && self.chance(self.theme.more) {
            let mut room = [0; OUTPUT];
            let last = &bytes[heard..];
            let session = index as u32 + 1;
            let _ = server.receive(session, self.driver.clock, last, &mut room);
            heard = bytes.len();
            let next = match server.sessions[index] {
                Some(_) => self.choose(&server, index),
                // The link is closed; these bytes are to be dropped.
                None => self.random.bytes(3),
            };
            bytes.extend(next);
        }
        bytes
    }

    fn choose(&mut self, server: &Server, index: usize) -> Vec<u8> {
        if self.chance(self.theme.stray) {
            return stray(&mut self.random);
        }
        if self.chance(self.theme.uplink) {
            self.uplink_packet(server, index)
        } else {
            self.downlink_packet(server, index)
        }
    }

    /// Packets that bring the session into some state, and a stray one.
    fn moment(&mut self, index: usize) -> Vec<u8> {
        let server = &self.driver.server;
        let session = server.sessions[index].as_ref().expect("an open session");
        let mut bytes = Vec::new();
        if session.uplink == Uplink::Idle {
            let beginning = [
                packet(Type::UploadCmd, &two_numbers(0, 5)),
                packet(Type::Data, &[0; 6]),
            ];
            bytes.extend(beginning[..self.random.below(3)].concat());
        }
        let mut files = server.store.places.iter().flatten();
        let complete = files.find(|file| file.is_complete());
        if let (Some(file), Downlink::Idle) = (complete, session.downlink) {
            let number = file.number;
            let command = if self.random.chance(1, 3) {
                let kind = *self.random.pick(&[Type::DirShortCmd, Type::DirLongCmd]);
                packet(kind, &number.to_le_bytes())
            } else {
                let mut information = two_numbers(number, 0);
                information.push(0);
                packet(Type::DownloadCmd, &information)
            };
            let asked = [command, packet(Type::DlNakCmd, &[])];
            bytes.extend(asked[..self.random.below(3)].concat());
        }
        if self.random.chance(2, 3) {
            bytes.extend(stray(&mut self.random));
        }
        bytes
    }
}
