//! The peer beside the second program: random scripts at many sizes, their bytes cut anywhere. Each call is made on both; answers, outputs and the number of
//! free blocks are compared.
use peer::Answer as Got;
use reference::draft::Draft;
use reference::generator::{equation, relation, seed_of, story};
use reference::packet::{Packet, Type};
use reference::random::Random;
use reference::script::Line;
use reference::server::{Answer, Downlink, Server, Sizes, OUTPUT};

/// A call but for its session.
#[derive(Clone, Copy, Debug)]
enum Call<'a> {
    Open,
    Receive(&'a [u8]),
    Request,
    Lose,
}

struct Pair {
    peer: peer::Server,
    second: Server,
    clock: u32,
    calls: usize,
    /// How often each answer was given: refused, closed, quiet, sent.
    answers: [usize; 4],
}

impl Pair {
    fn new(sizes: Sizes) -> Pair {
        let Sizes {
            blocks,
            files,
            sessions,
            maxsel,
        } = sizes;
        let peers = peer::Sizes {
            blocks,
            files,
            sessions,
            maxsel,
        };
        Pair {
            peer: peer::Server::new(peers).expect("sizes of the table"),
            second: Server::new(sizes).expect("sizes of the table"),
            clock: 0,
            calls: 0,
            answers: [0; 4],
        }
    }

    /// Makes a call on both with an output of that length, and compares.
    fn call_with(&mut self, session: u32, call: Call, room: usize) -> Got {
        self.calls += 1;
        let mut outputs = [vec![self.calls as u8; room], vec![self.calls as u8; room]];
        let [got, want] = &mut outputs;
        let (clock, peers) = (self.clock, session as usize);
        let (got, want) = match call {
            Call::Open => (
                self.peer.open(peers, clock, got),
                self.second.open(session, clock, want),
            ),
            Call::Receive(bytes) => (
                self.peer.receive(peers, clock, bytes, got),
                self.second.receive(session, clock, bytes, want),
            ),
            Call::Request => (
                self.peer.request(peers, got),
                self.second.request(session, want),
            ),
            Call::Lose => (self.peer.lose(peers), self.second.lose(session)),
        };
        let (kind, want) = match want {
            Answer::Refused(number) => (0, Got::Refused(number)),
            Answer::Closed(taken) => (1, Got::Closed(taken)),
            Answer::Quiet(taken) => (2, Got::Quiet(taken)),
            Answer::Sent(taken, packet) => (3, Got::Sent(taken, packet.bytes().len())),
        };
        self.answers[kind] += 1;
        assert_eq!(got, want, "session {session}, {call:02x?}");
        assert_eq!(outputs[0], outputs[1], "session {session}, {call:02x?}");
        assert_eq!(self.peer.free_blocks(), self.second.store.free_blocks());
        got
    }

    fn call(&mut self, session: u32, call: Call) -> Got {
        self.call_with(session, call, OUTPUT)
    }

    /// Hands over bytes, in random pieces where they are to be cut, with requests between.
    fn hand_over(&mut self, random: &mut Random, cut: bool, session: u32, bytes: &[u8]) {
        let mut rest = bytes;
        loop {
            let most = match cut {
                true => *random.pick(&[0, 1, 2, 3, 100, rest.len()]),
                false => rest.len(),
            };
            let piece = &rest[..most.min(rest.len())];
            match self.call(session, Call::Receive(piece)) {
                Got::Refused(_) | Got::Closed(_) => return,
                Got::Quiet(taken) | Got::Sent(taken, _) => rest = &rest[taken..],
            }
            if random.chance(1, 8) {
                self.call(session, Call::Request);
            }
            if rest.is_empty() {
                return;
            }
        }
    }

    /// Requests until nothing is due.
    fn pump(&mut self, session: u32) {
        while let Got::Sent(..) = self.call(session, Call::Request) {}
    }

    /// A packet in one piece.
    fn packet(&mut self, session: u32, kind: Type, information: &[u8]) -> Got {
        let bytes = Packet::new(kind, information).bytes();
        self.call(session, Call::Receive(&bytes))
    }

    fn upload(&mut self, session: u32, file: &[u8]) {
        let length = (file.len() as u32).to_le_bytes();
        self.packet(session, Type::UploadCmd, &[[0; 4], length].concat());
        for data in file.chunks(256) {
            self.packet(session, Type::Data, data);
        }
        self.packet(session, Type::DataEnd, &[]);
    }

    fn run(&mut self, random: &mut Random, cut: bool, line: &Line) {
        match line {
            Line::Time(clock) => self.clock = *clock,
            Line::Open(session) => {
                self.call(*session, Call::Open);
            }
            Line::Drop(session) => {
                self.call(*session, Call::Lose);
            }
            Line::Rx(session, bytes) => {
                self.hand_over(random, cut, *session, bytes);
                // now and then a download is left unfinished
                if random.chance(7, 8) {
                    self.pump(*session);
                }
            }
        }
        if random.chance(1, 30) {
            let call = *random.pick(&[Call::Open, Call::Receive(&[]), Call::Request]);
            let (session, room) = (random.below(6) as u32, random.below(OUTPUT));
            self.call_with(session, call, room);
        }
    }
}

fn random_sizes(random: &mut Random) -> Sizes {
    match random.below(3) {
        0 => Sizes::PROGRAM,
        _ => Sizes {
            blocks: *random.pick(&[1, 2, 5, 20, 64, 1000, 4096]),
            files: *random.pick(&[1, 2, 4, 9, 256]),
            sessions: random.between(1, 4),
            maxsel: *random.pick(&[1, 2, 5, 49, 50]),
        },
    }
}

#[test]
fn random_scripts_get_the_second_programs_answers() {
    let (mut calls, mut answers) = (0, [0; 4]);
    for index in 0..400 {
        let seed = seed_of(31, index);
        let mut random = Random::new(!seed);
        let mut pair = Pair::new(random_sizes(&mut random));
        let cut = random.chance(1, 2);
        for line in story(seed).lines {
            if let Some(line) = Line::parse(&line) {
                pair.run(&mut random, cut, &line);
            }
        }
        calls += pair.calls;
        (0..4).for_each(|kind| answers[kind] += pair.answers[kind]);
    }
    println!("{calls} calls: refused, closed, quiet, sent {answers:?}");
    assert!(calls > 20_000 && answers.iter().all(|count| *count > 100));
}

/// Files with long headers, so that items cross the ends of blocks.
fn long_headers(random: &mut Random) -> Vec<Vec<u8>> {
    let file = |random: &mut Random| {
        let mut draft = Draft::new();
        for _ in 0..random.below(12) {
            let id = *random.pick(&[0x0c, 0x14, 0x14, 0x18, 0x22, 0x0101]);
            let length = *random.pick(&[1, 2, 4, 6, 90, 255]);
            let letters: Vec<u8> = (0..length).map(|_| *random.pick(b"aAbB*")).collect();
            draft = draft.with_item(id, &letters);
        }
        let body = random.below(700);
        draft.with_body(&random.bytes(body)).bytes()
    };
    (0..20).map(|_| file(random)).collect()
}

/// A SELECT; then a directory and a download, mostly of what it found, with the client's word.
fn page(pair: &mut Pair, random: &mut Random, equation: &[u8]) {
    pair.packet(1, Type::SelectCmd, &equation[..equation.len().min(256)]);
    let number = (random.below(2) * random.below(22)) as u32;
    let directory = *random.pick(&[Type::DirShortCmd, Type::DirLongCmd]);
    pair.packet(1, directory, &number.to_le_bytes());
    pair.pump(1);
    let mut download = [0; 9];
    download[4..8].copy_from_slice(&(random.below(300) as u32).to_le_bytes());
    download[8] = random.below(3) as u8;
    pair.packet(1, Type::DownloadCmd, &download);
    pair.pump(1);
    match pair.second.sessions[0]
        .as_ref()
        .map(|session| session.downlink)
    {
        Some(Downlink::Ended { .. }) if random.chance(3, 4) => {
            pair.packet(1, Type::DlAckCmd, &[random.below(3) as u8])
        }
        _ => pair.packet(1, Type::DlNakCmd, &[]),
    };
}

#[test]
fn random_equations_select_the_same_files() {
    let mut random = Random::new(7);
    let mut selected = 0;
    for _ in 0..30 {
        let mut pair = Pair::new(Sizes {
            blocks: 1000,
            files: 20,
            sessions: 1,
            maxsel: random.between(1, 20),
        });
        let files = long_headers(&mut random);
        pair.call(1, Call::Open);
        files.iter().for_each(|file| pair.upload(1, file));
        for _ in 0..100 {
            let equation = equation(&mut random, &files);
            page(&mut pair, &mut random, &equation);
            let session = pair.second.sessions[0].as_ref();
            selected += session.map_or(0, |session| session.selection.numbers.len());
        }
    }
    assert!(selected > 5_000, "{selected}");
}

#[test]
fn every_type_and_length_is_heard_alike_in_one_piece_and_byte_by_byte() {
    for kind in 0..32 {
        for length in [0, 1, 4, 8, 9, 255, 256, 257, 258, 512, 2047] {
            let mut bytes = vec![length as u8, kind | ((length >> 8) << 5) as u8];
            bytes.resize(2 + length, 0);
            for piece in [1, bytes.len()] {
                let mut pair = Pair::new(Sizes::PROGRAM);
                pair.call(1, Call::Open);
                for piece in bytes.chunks(piece) {
                    pair.call(1, Call::Receive(piece));
                }
            }
        }
    }
}

#[test]
fn numbers_and_times_are_used_up_alike() {
    let mut pair = Pair::new(Sizes::PROGRAM);
    let (number, time) = (u32::MAX - 3, u32::MAX - 2);
    pair.peer.set_last(number, time);
    pair.second.store.last_number = number;
    pair.second.store.last_time = time;
    pair.call(1, Call::Open);
    let file = Draft::new().bytes();
    (0..5).for_each(|_| pair.upload(1, &file));
    pair.call(1, Call::Open);
    pair.packet(1, Type::SelectCmd, &relation(0x90, 0x12, &[0]));
    pair.packet(1, Type::DirLongCmd, &[0; 4]);
    pair.pump(1);
}

#[test]
fn sizes_outside_the_table_are_refused_alike() {
    for sizes in [
        [0, 1, 1, 1],
        [4097, 1, 1, 1],
        [1, 257, 1, 1],
        [1, 1, 5, 1],
        [1, 1, 1, 51],
        [1, 1, 1, 0],
        [1, 1, 1, 1],
    ] {
        let [blocks, files, sessions, maxsel] = sizes;
        let second = Server::new(Sizes {
            blocks,
            files,
            sessions,
            maxsel,
        });
        let peer = peer::Server::new(peer::Sizes {
            blocks,
            files,
            sessions,
            maxsel,
        });
        assert_eq!(peer.err(), second.err(), "{sizes:?}");
    }
}
