//! Random calls. The author looks at the second program's state, so that most calls mean something to the server: uploads in pieces that
//! complete, continuations, selections, downloads with their words, directories; and among them damage of every kind.
mod downlink;
mod uplink;

use crate::call::{Act, Call};
use crate::proved::Answer;
use reference::generator::{stray, Plan, Wishes};
use reference::random::Random;
use reference::server::{Downlink, Server, Session, Uplink, OUTPUT};
use reference::store::File;
use std::collections::BTreeMap;

/// What the calls of one history dwell on. Chances are of 100.
#[derive(Clone, Copy, Debug)]
pub struct Habits {
    /// an uplink packet rather than a downlink one
    uplink: usize,
    /// a packet that is out of place
    stray: usize,
    /// bytes handed over in pieces
    cut: usize,
    /// a link lost
    lost: usize,
    /// a call that is refused
    odd: usize,
    /// another clock
    clock: usize,
    /// clocks near the end
    late: bool,
    /// an upload as long as the store has room, or a little longer
    brim: usize,
    wishes: Wishes,
}

impl Habits {
    fn random(random: &mut Random) -> Habits {
        Habits {
            uplink: *random.pick(&[10, 50, 60, 90]),
            stray: *random.pick(&[0, 1, 3, 15]),
            cut: *random.pick(&[0, 10, 50, 100]),
            lost: *random.pick(&[0, 1, 4, 12]),
            odd: *random.pick(&[0, 3, 10]),
            clock: *random.pick(&[0, 5, 30]),
            late: random.chance(1, 8),
            brim: *random.pick(&[0, 0, 0, 4]),
            wishes: Wishes {
                damaged: *random.pick(&[0, 10, 40, 90]),
                long: 0,
                body: *random.pick(&[0, 20, 60, 300, 2000]),
            },
        }
    }
}

pub struct Author {
    random: Random,
    habits: Habits,
    clock: u32,
    /// What is meant to be uploaded under each file number.
    plans: BTreeMap<u32, Plan>,
    /// What each session means to upload next.
    meant: [Option<Plan>; 4],
    /// The bytes of a packet that each session has still to send.
    outbox: [Vec<u8>; 4],
}

impl Author {
    pub fn new(mut random: Random) -> Author {
        let habits = Habits::random(&mut random);
        let clock = match habits.late {
            true => u32::MAX - random.below(4) as u32,
            false => random.below(2000) as u32,
        };
        Author {
            random,
            habits,
            clock,
            plans: BTreeMap::new(),
            meant: Default::default(),
            outbox: Default::default(),
        }
    }

    fn chance(&mut self, of_100: usize) -> bool {
        self.random.chance(of_100, 100)
    }

    // ---- calls

    pub fn next(&mut self, server: &Server) -> Call {
        if self.chance(self.habits.clock) {
            self.turn_clock();
        }
        if self.chance(self.habits.odd) {
            return self.odd(server);
        }
        let index = self.random.below(server.sessions.len());
        let act = match &server.sessions[index] {
            None => Act::Open,
            Some(_) if self.chance(self.habits.lost) => {
                // mostly what was not sent is forgotten with the link
                if self.random.chance(9, 10) {
                    self.outbox[index].clear();
                }
                Act::Lose
            }
            Some(session) => self.act(server, session, index),
        };
        self.call(index + 1, act)
    }

    fn call(&mut self, session: usize, act: Act) -> Call {
        let room = match self.random.below(8) {
            0 => OUTPUT + self.random.below(300),
            _ => OUTPUT,
        };
        Call {
            session,
            clock: self.clock,
            room,
            act,
        }
    }

    /// The next request or bytes of an open session.
    fn act(&mut self, server: &Server, session: &Session, index: usize) -> Act {
        let due = match session.downlink {
            Downlink::Sending { .. } => 60,
            Downlink::Listing { .. } => 30,
            Downlink::Aborting { .. } => 6,
            Downlink::Idle | Downlink::Ended { .. } => 2,
        };
        if self.chance(due) {
            return Act::Request;
        }
        if self.outbox[index].is_empty() {
            self.outbox[index] = self.compose(server, session, index);
        }
        Act::Receive(self.piece(index))
    }

    /// What of the packet to be sent is handed over next; behind a packet's end now and then bytes that are not to be taken.
    fn piece(&mut self, index: usize) -> Vec<u8> {
        let most = self.outbox[index].len();
        if !self.chance(self.habits.cut) {
            let mut bytes = self.outbox[index].clone();
            if self.random.chance(1, 8) {
                let more = self.random.below(20);
                bytes.extend(self.random.bytes(more));
            }
            return bytes;
        }
        let length = match self.random.below(5) {
            0 => 1.min(most),
            1 => 3.min(most),
            2 => most.saturating_sub(1),
            3 => 0,
            _ => self.random.between(0, most),
        };
        self.outbox[index][..length].to_vec()
    }

    /// Takes note of a call's answer.
    pub fn heard(&mut self, call: &Call, answer: &Answer, server: &Server) {
        let index = match call.session.checked_sub(1) {
            Some(index) if index < server.sessions.len() => index,
            _ => return,
        };
        if matches!(answer, Answer::Closed(_)) {
            self.outbox[index].clear();
        } else if matches!(call.act, Act::Receive(_)) {
            let taken = answer.taken().min(self.outbox[index].len());
            self.outbox[index].drain(..taken);
        }
        // what is meant is kept under the number that the session was given
        let session = match &server.sessions[index] {
            Some(session) => session,
            None => return,
        };
        if let (Uplink::Receiving { place, .. }, Some(plan)) = (session.uplink, &self.meant[index])
        {
            let file = server.store.file(place);
            if plan.announced == file.length && !self.plans.contains_key(&file.number) {
                self.plans.insert(file.number, plan.clone());
            }
        }
    }

    fn turn_clock(&mut self) {
        let clock = self.clock;
        self.clock = match self.random.below(6) {
            0 => clock.saturating_sub(self.random.below(100) as u32),
            1 => clock,
            2 if self.habits.late => u32::MAX,
            3 => self.random.below(3) as u32,
            _ => clock.saturating_add(self.random.below(50) as u32),
        };
    }

    /// A call on a session that does not exist, or is open or closed already, or with an output that is too short.
    fn odd(&mut self, server: &Server) -> Call {
        let beyond = server.sessions.len() + 1;
        let numbers = [
            0,
            1,
            1,
            2,
            3,
            4,
            beyond,
            17,
            u32::MAX as usize,
            (1 << 32) + 1,
            usize::MAX,
        ];
        let session = *self.random.pick(&numbers);
        let act = match self.random.below(5) {
            0 | 1 => Act::Open,
            2 => Act::Lose,
            3 => Act::Request,
            _ => Act::Receive(match self.outbox.get(session.wrapping_sub(1)) {
                // the packet of a session that has none begun is not begun here
                Some(outbox) if !outbox.is_empty() => outbox.clone(),
                _ => Vec::new(),
            }),
        };
        let mut call = self.call(session, act);
        if self.random.chance(1, 2) {
            call.room = *self.random.pick(&[0, 1, 2, 7, 255, 256, 257]);
        }
        call
    }

    // ---- packets

    fn compose(&mut self, server: &Server, session: &Session, index: usize) -> Vec<u8> {
        if self.chance(self.habits.stray) {
            return stray(&mut self.random);
        }
        // an upload for which there is no place is refused, which need not be seen often
        let vain = session.uplink == Uplink::Idle && is_full(server) && self.chance(80);
        if self.chance(self.habits.uplink) && !vain {
            self.uplink_packet(server, session, index)
        } else {
            self.downlink_packet(server, session, index)
        }
    }
}

/// No place is free.
fn is_full(server: &Server) -> bool {
    server.store.places.iter().all(Option::is_some)
}

fn files(server: &Server, wanted: impl Fn(&File) -> bool) -> Vec<&File> {
    let all = server.store.places.iter().flatten();
    all.filter(|file| wanted(file)).collect()
}
