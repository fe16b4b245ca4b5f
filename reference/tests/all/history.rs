//! Random histories of calls, watched from outside: a model that sees only the
//! packets of the links keeps what each file must be.

use std::collections::{BTreeMap, BTreeSet};

use crate::common::model::Model;
use crate::common::{
    above, ack, data_end, directory, download, nak, packet, proceed, select, upload, Desk,
};
use reference::draft::Draft;
use reference::header;
use reference::packet::{number, Frame, Packet, Type};
use reference::random::Random;
use reference::server::{Answer, Downlink, Server, Sizes, Uplink};

/// One call of a history.
#[derive(Clone, Debug, PartialEq)]
enum Call {
    Open(u32),
    Lose(u32),
    Receive(u32, Vec<u8>),
    Request(u32),
    Clock(u32),
}

/// Pages through the files with an equation, on a copy of the server.
fn pages(desk: &Desk, equation: &[u8]) -> Vec<u32> {
    let mut desk = desk.clone();
    desk.lose(1);
    desk.open(1);
    let mut given = Vec::new();
    let mut time = 0;
    loop {
        let mut asked = equation.to_vec();
        asked.extend(above(time));
        if !equation.is_empty() {
            asked.push(1);
        }
        desk.hear(1, &select(&asked));
        let page = desk.server.sessions[0].clone().unwrap().selection.numbers;
        given.extend(&page);
        if page.len() < desk.server.sizes.maxsel {
            return given;
        }
        let newest = desk.contents(*page.last().unwrap()).unwrap();
        time = number(header::first(&newest, 0x12).unwrap());
    }
}

/// Makes calls that mostly mean something to the server as it is.
struct Driver {
    random: Random,
    desk: Desk,
    model: Model,
    frames: [Frame; 4],
    /// The rest of the packet that each session is sending.
    pending: [Vec<u8>; 4],
    /// The file that is meant under each number.
    plans: BTreeMap<u32, Vec<u8>>,
    calls: Vec<Call>,
    answers: Vec<Packet>,
}

impl Driver {
    fn new(seed: u64, sizes: Sizes) -> Driver {
        Driver {
            random: Random::new(seed),
            desk: Desk::sized(sizes),
            model: Model::default(),
            frames: Default::default(),
            pending: Default::default(),
            plans: BTreeMap::new(),
            calls: Vec::new(),
            answers: Vec::new(),
        }
    }

    fn step(&mut self) {
        let sessions = self.desk.server.sizes.sessions;
        let session = self.random.between(1, sessions);
        if self.random.chance(1, 12) {
            self.turn_clock();
        }
        let index = session - 1;
        if !self.desk.is_open(session) {
            return self.call(Call::Open(session as u32));
        }
        if self.random.chance(1, 40) {
            return self.call(Call::Lose(session as u32));
        }
        if self.random.chance(1, 3) {
            return self.call(Call::Request(session as u32));
        }
        if self.pending[index].is_empty() {
            self.pending[index] = self.next_packet(index);
        }
        let most = self.pending[index].len();
        let piece = match self.random.below(3) {
            0 => self.random.between(0, most),
            _ => most,
        };
        let bytes: Vec<u8> = self.pending[index].drain(..piece).collect();
        self.call(Call::Receive(session as u32, bytes));
    }

    fn turn_clock(&mut self) {
        let clock = self.desk.clock;
        let clock = match self.random.below(4) {
            0 => clock.saturating_sub(self.random.below(50) as u32),
            1 => clock,
            _ => clock + self.random.below(20) as u32,
        };
        self.call(Call::Clock(clock));
    }

    fn call(&mut self, call: Call) {
        let answer = match &call {
            Call::Open(session) => {
                self.frames[*session as usize - 1] = Frame::new();
                self.pending[*session as usize - 1].clear();
                self.desk.open(*session)
            }
            Call::Lose(session) => {
                self.model.uploading[*session as usize - 1] = None;
                self.desk.lose(*session)
            }
            Call::Request(session) => self.desk.request(*session),
            Call::Clock(clock) => {
                self.desk.clock = *clock;
                Answer::Quiet(0)
            }
            Call::Receive(session, bytes) => {
                let (session, bytes) = (*session, bytes.clone());
                let answer = self.desk.receive(session, &bytes);
                let (took, framed) = self.frames[session as usize - 1].feed(&bytes);
                assert_eq!(took, bytes.len());
                let (server, clock) = (&self.desk.server, self.desk.clock);
                self.model.heard(server, clock, session, &framed, &answer);
                answer
            }
        };
        if let Answer::Sent(_, packet) = answer {
            self.answers.push(packet);
        }
        self.calls.push(call);
    }

    fn next_packet(&mut self, index: usize) -> Vec<u8> {
        if self.random.chance(1, 60) {
            let length = self.random.below(12);
            let kind = self.random.below(32) as u8;
            let mut bytes = vec![length as u8, kind];
            bytes.extend(self.random.bytes(length));
            return bytes;
        }
        if self.random.chance(1, 2) {
            self.uplink_packet(index)
        } else {
            self.downlink_packet(index)
        }
    }

    fn uplink_packet(&mut self, index: usize) -> Vec<u8> {
        match self.desk.server.sessions[index].as_ref().unwrap().uplink {
            Uplink::Receiving { place, .. } => self.next_data(place),
            Uplink::Ignoring if self.random.chance(1, 2) => packet(Type::Data, &[1]),
            Uplink::Ignoring => data_end(),
            Uplink::Idle => self.upload_packet(),
        }
    }

    fn next_data(&mut self, place: usize) -> Vec<u8> {
        let file = self.desk.server.store.file(place).clone();
        let plan = self.plans.get(&file.number).cloned().unwrap_or_default();
        let from = (file.received as usize).min(plan.len());
        let left = plan.len() - from;
        if left == 0 || self.random.chance(1, 30) {
            if self.random.chance(1, 10) {
                return packet(Type::Data, &[0; 9]);
            }
            return data_end();
        }
        let piece = match self.random.below(4) {
            0 => self.random.between(0, left.min(256)),
            _ => left.min(256),
        };
        packet(Type::Data, &plan[from..from + piece])
    }

    fn upload_packet(&mut self) -> Vec<u8> {
        let partials: Vec<u32> = self.model.partials.keys().copied().collect();
        if !partials.is_empty() && self.random.chance(1, 2) {
            let file = *self.random.pick(&partials);
            let length = self.plans.get(&file).map_or(0, Vec::len) as u32;
            return proceed(file, length + u32::from(self.random.chance(1, 15)));
        }
        let body = self.random.below(700);
        let mut draft = Draft::new().with_body(&self.random.bytes(body));
        for _ in 0..self.random.below(3) {
            let station = *self.random.pick(&["G0K8KA", "NK6K"]);
            draft = draft.with_item(0x14, station.as_bytes());
        }
        if self.random.chance(1, 3) {
            draft = draft.with_item(0x22, b"Landrover");
        }
        if self.random.chance(1, 12) {
            draft.header_sum_error = 1;
        }
        let file = draft.bytes();
        let length = file.len() as u32;
        self.plans
            .insert(self.desk.server.store.last_number + 1, file);
        upload(length)
    }

    fn directory_command(&mut self) -> Type {
        *self.random.pick(&[Type::DirShortCmd, Type::DirLongCmd])
    }

    fn downlink_packet(&mut self, index: usize) -> Vec<u8> {
        let session = self.desk.server.sessions[index].as_ref().unwrap();
        match session.downlink {
            Downlink::Idle => match self.random.below(11) {
                0..=2 => select(&above(self.random.below(40) as u32)),
                3 => select(b"\x83\x22\0\x06*land*"),
                4 => select(b"\x93\x22\0\x01m"),
                5 => download(self.random.below(12) as u32, 0, 0),
                6 | 7 => directory(self.directory_command(), 0),
                8 => {
                    let number = self.random.below(12) as u32;
                    directory(self.directory_command(), number)
                }
                _ => download(0, 0, self.random.below(2) as u8),
            },
            Downlink::Ended { .. } => match self.random.below(4) {
                0 => nak(),
                other => ack(other as u8 - 1),
            },
            Downlink::Sending { .. } | Downlink::Listing { .. } if self.random.chance(1, 3) => {
                nak()
            }
            // Nothing is expected on the downlink; an uplink packet instead.
            _ => self.uplink_packet(index),
        }
    }
}

fn small() -> Sizes {
    Sizes {
        blocks: 14,
        files: 5,
        sessions: 4,
        maxsel: 2,
    }
}

fn middle() -> Sizes {
    Sizes {
        blocks: 128,
        files: 32,
        sessions: 4,
        maxsel: 3,
    }
}

#[test]
fn the_store_is_what_the_packets_say() {
    let mut completed = 0;
    for seed in 0..24 {
        let sizes = if seed % 2 == 0 { small() } else { middle() };
        let mut driver = Driver::new(seed, sizes);
        for step in 0..900 {
            driver.step();
            if step % 100 == 99 {
                driver.model.agrees(&driver.desk.server);
                pages_agree(&driver.desk, &driver.model);
            }
        }
        completed += driver.model.order.len();
    }
    assert!(completed > 100, "only {completed} files completed");
}

/// "Demand 3's paging reads with the mended meaning": the pages of an equation
/// give every file with any item that meets it, once, oldest first.
fn pages_agree(desk: &Desk, model: &Model) {
    let order: Vec<u32> = model.order.iter().map(|(file, _)| *file).collect();
    assert_eq!(pages_if_open(desk, &[]), order);
    let with_any = |id: u16, passes: fn(&[u8]) -> bool| {
        let mut files = order.clone();
        files.retain(|file| {
            let bytes = &model.complete[file];
            let mut items = header::items(bytes).into_iter();
            items.any(|item| item.id == id && passes(item.data(bytes)))
        });
        files
    };
    let titled = with_any(0x22, |_| true);
    assert_eq!(pages_if_open(desk, b"\x83\x22\0\x06*land*"), titled);
    let to_nk6k = with_any(0x14, |station| station == b"NK6K");
    assert_eq!(pages_if_open(desk, b"\x83\x14\0\x04nk6k"), to_nk6k);
    let to_another = with_any(0x14, |station| station != b"NK6K");
    assert_eq!(pages_if_open(desk, b"\xb3\x14\0\x04nk6k"), to_another);
}

/// Pages whether session 1 is open or not.
fn pages_if_open(desk: &Desk, equation: &[u8]) -> Vec<u32> {
    let mut desk = desk.clone();
    if !desk.is_open(1) {
        desk.open(1);
    }
    pages(&desk, equation)
}

/// Plays the calls on a new server and gathers the packets sent.
fn play(sizes: Sizes, calls: &[Call]) -> (Server, Vec<Packet>) {
    let mut server = Server::new(sizes).unwrap();
    let mut clock = 0;
    let mut output = [0; 258];
    let mut sent = Vec::new();
    for call in calls {
        let answer = match call {
            Call::Open(session) => server.open(*session, clock, &mut output),
            Call::Lose(session) => server.lose(*session),
            Call::Receive(session, bytes) => server.receive(*session, clock, bytes, &mut output),
            Call::Request(session) => server.request(*session, &mut output),
            Call::Clock(now) => {
                clock = *now;
                Answer::Quiet(0)
            }
        };
        match answer {
            Answer::Sent(_, packet) => sent.push(packet),
            Answer::Refused(number) => panic!("refused {number}"),
            _ => {}
        }
    }
    (server, sent)
}

/// Cuts the bytes elsewhere and moves all but the last byte of each piece to
/// an earlier place, though not before the session's last packet or closing.
fn cut_elsewhere(calls: &[Call], random: &mut Random) -> Vec<Call> {
    let mut cut: Vec<Call> = Vec::new();
    // Where in the new list each session's own last call stands.
    let mut last = [0usize; 4];
    for call in calls {
        let session = match call {
            Call::Open(session) | Call::Lose(session) => *session,
            Call::Receive(session, bytes) => {
                let index = *session as usize - 1;
                let mut from = 0;
                while from < bytes.len() {
                    let to = random.between(from + 1, bytes.len());
                    let piece = Call::Receive(*session, bytes[from..to].to_vec());
                    if to < bytes.len() && random.chance(1, 2) {
                        let at = random.between(last[index], cut.len());
                        cut.insert(at, piece);
                        for other in &mut last {
                            if *other > at {
                                *other += 1;
                            }
                        }
                        last[index] = at + 1;
                    } else {
                        cut.push(piece);
                        last[index] = cut.len();
                    }
                    from = to;
                }
                continue;
            }
            Call::Request(_) | Call::Clock(_) => {
                cut.push(call.clone());
                continue;
            }
        };
        cut.push(call.clone());
        last[session as usize - 1] = cut.len();
    }
    cut
}

#[test]
fn cutting_elsewhere_changes_no_packet_and_no_state() {
    let mut random = Random::new(99);
    for seed in 100..130 {
        let sizes = if seed % 2 == 0 { small() } else { middle() };
        let mut driver = Driver::new(seed, sizes);
        for _ in 0..600 {
            driver.step();
        }
        let (server, sent) = play(sizes, &driver.calls);
        assert_eq!(server, driver.desk.server);
        assert_eq!(sent, driver.answers);
        for _ in 0..4 {
            let cut = cut_elsewhere(&driver.calls, &mut random);
            let (cut_server, cut_sent) = play(sizes, &cut);
            assert_eq!(cut_sent, sent);
            assert_eq!(cut_server, server);
        }
    }
}

/// Each of the server's packets and a good part of the refusals must occur,
/// or the histories say little.
#[test]
fn the_histories_reach_every_response() {
    let mut kinds = BTreeSet::new();
    let mut numbers = BTreeSet::new();
    for seed in 0..24 {
        let sizes = if seed % 2 == 0 { small() } else { middle() };
        let mut driver = Driver::new(seed, sizes);
        for _ in 0..900 {
            driver.step();
        }
        for packet in &driver.answers {
            kinds.insert(packet.kind.number());
            if matches!(
                packet.kind,
                Type::UlErrorResp | Type::UlNakResp | Type::DlErrorResp
            ) {
                numbers.insert(packet.information[0]);
            }
        }
    }
    let kinds: Vec<u8> = kinds.into_iter().collect();
    assert_eq!(kinds, [0, 1, 2, 4, 5, 6, 7, 9, 10, 11, 17]);
    for number in [2, 4, 5, 8, 10, 13, 15, 16] {
        assert!(numbers.contains(&number), "{number} was not reached");
    }
}
