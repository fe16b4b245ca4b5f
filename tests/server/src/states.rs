//! States for the sweep: those of random histories with the most different cases in them, and some in which all four sessions are in one case.
use crate::call::{Act, Call};
use crate::history::{run_from, shortened, Failure};
use crate::packets::{data, directory, download, nak, select, upload, whole_upload};
use crate::pair::{Pair, Start};
use crate::proved::{Answer, Proved};
use reference::draft::Draft;
use reference::random::Random;
use reference::server::{Downlink, Listed, Server, Sizes, Uplink, OUTPUT};

/// How many different cases a state has.
fn cases(server: &Server) -> u32 {
    let mut found: u32 = 0;
    let mut note = |case: u32, there: bool| found |= u32::from(there) << case;
    for session in server.sessions.iter().flatten() {
        note(0, session.uplink == Uplink::Idle);
        note(1, session.uplink == Uplink::Ignoring);
        note(2, matches!(session.uplink, Uplink::Receiving { .. }));
        note(3, session.downlink == Downlink::Idle);
        note(4, matches!(session.downlink, Downlink::Sending { .. }));
        note(5, matches!(session.downlink, Downlink::Ended { .. }));
        note(6, matches!(session.downlink, Downlink::Aborting { .. }));
        note(7, 2 <= session.frame.held().len());
        note(8, session.selection.numbers.len() == server.sizes.maxsel);
        if let Downlink::Listing { directory, sent } = session.downlink {
            let one = matches!(directory.listed, Listed::One { .. });
            let form = u32::from(directory.long);
            note(15 + form, one);
            note(17 + form, !one);
            note(19, 0 < sent);
        }
    }
    note(9, server.sessions.iter().any(Option::is_none));
    note(10, server.store.free.contains(&true));
    note(11, server.store.places.contains(&None));
    for file in server.store.places.iter().flatten() {
        note(12, file.is_complete());
        note(13, !file.is_complete() && file.received < file.length);
        note(14, 256 < file.length);
    }
    found.count_ones()
}

/// Of the states of a random history of so many calls, the last one with the most cases.
pub fn random_state(seed: u64, calls: usize, start: Start) -> Result<Proved, Box<Failure>> {
    let (mut most, mut state) = (0, Pair::new(start).proved);
    let look = |pair: &Pair| {
        let cases = cases(&pair.second);
        if most <= cases {
            most = cases;
            state = pair.proved.clone();
        }
    };
    run_from(seed, start, calls, Random::new(seed), look).map_err(shortened)?;
    Ok(state)
}

/// Blocks, files, sessions and MAXSEL at which all words can be tried with all values.
pub const SMALL: [(usize, usize, usize, usize); 6] = [
    (1, 1, 1, 1),
    (3, 2, 1, 2),
    (7, 4, 2, 1),
    (12, 8, 4, 2),
    (16, 6, 3, 4),
    (24, 12, 4, 3),
];

/// Whole words of the map and not, and the program's sizes.
pub const LARGER: [(usize, usize, usize, usize); 4] = [
    (64, 9, 4, 2),
    (67, 16, 4, 5),
    (128, 24, 2, 3),
    (128, 32, 4, 50),
];

pub fn start(sizes: (usize, usize, usize, usize), longer: usize) -> Start {
    let (blocks, files, sessions, maxsel) = sizes;
    let sizes = Sizes {
        blocks,
        files,
        sessions,
        maxsel,
    };
    Start {
        longer,
        ..Start::new(sizes)
    }
}

// ---- states in which all sessions are in one case

/// Makes calls that are answered.
struct Class {
    pair: Pair,
}

impl Class {
    /// Four links and four complete files of 80 bytes, and room for four more; the upload times below 100 were given to none.
    fn new() -> Class {
        Class::with_files(start((12, 8, 4, 2), 0), 4, &[])
    }

    /// Four links and so many complete files with this body.
    fn with_files(start: Start, files: usize, body: &[u8]) -> Class {
        let mut class = Class {
            pair: Pair::new(start),
        };
        class.each(|class, session| class.call(session, Act::Open));
        let file = Draft::new().with_body(body).bytes();
        for session in (1..=4).cycle().take(files) {
            for packet in whole_upload(&file) {
                class.send(session, packet);
            }
        }
        class
    }

    fn call(&mut self, session: usize, act: Act) {
        let call = Call {
            session,
            clock: 100,
            room: OUTPUT,
            act,
        };
        match self.pair.call(&call) {
            Ok(Answer::Quiet(_) | Answer::Sent(..)) => {}
            answer => panic!("{call}: {answer:?}"),
        }
    }

    fn send(&mut self, session: usize, bytes: Vec<u8>) {
        self.call(session, Act::Receive(bytes));
    }

    fn each(&mut self, act: impl Fn(&mut Class, usize)) {
        (1..=4).for_each(|session| act(self, session));
    }

    fn upload(&mut self, sent: &[u8]) {
        self.each(|class, session| {
            class.send(session, upload(0, 80));
            class.send(session, data(sent));
        });
    }

    /// Downloads of the first file of a full selection.
    fn download(&mut self) {
        self.each(|class, session| {
            class.send(session, select(&[0x83, 2, 0, 1, b'*']));
            class.send(session, download(0, 0, 0));
        });
    }

    /// Short and long directories in turn: of the file with the session's number, or of the selection.
    fn list(&mut self, selected: bool) {
        self.each(|class, session| {
            class.send(session, select(&[0x83, 2, 0, 1, b'*']));
            let number = if selected { 0 } else { session as u32 };
            class.send(session, directory(session % 2 == 0, number));
        });
    }

    /// Begins a packet: all but the first session have its head.
    fn begin_packet(mut self) -> Proved {
        self.each(|class, session| class.send(session, data(&[5; 256])[..session].to_vec()));
        self.pair.proved
    }
}

/// Uploads just begun, with as many bytes each, and no selection.
fn uploads_begun() -> Proved {
    let mut class = Class::new();
    class.upload(&[]);
    class.begin_packet()
}

/// Uploads before their DATA_END, and downloads with all bytes sent.
fn uploads_whole() -> Proved {
    let mut class = Class::new();
    class.upload(&Draft::new().bytes());
    class.download();
    class.each(|class, session| class.call(session, Act::Request));
    class.begin_packet()
}

/// Uploads that are ignored, and downloads after DATA_END.
fn uploads_ignored() -> Proved {
    let mut class = Class::new();
    class.upload(&[3; 81]);
    class.download();
    class.each(|class, session| {
        class.call(session, Act::Request);
        class.call(session, Act::Request);
    });
    class.begin_packet()
}

/// Partial files that no session uploads, and downloads that are being aborted.
fn downloads_aborted() -> Proved {
    let mut class = Class::new();
    class.upload(&[3; 20]);
    class.each(|class, session| {
        class.call(session, Act::Lose);
        class.call(session, Act::Open);
    });
    class.download();
    class.each(|class, session| class.send(session, nak()));
    class.begin_packet()
}

/// Four complete files whose headers have 340 bytes, and a selection of all of them.
fn with_long_headers() -> Class {
    let mut class = Class {
        pair: Pair::new(start((16, 8, 4, 4), 0)),
    };
    class.each(|class, session| class.call(session, Act::Open));
    let file = Draft::new()
        .with_item(0x22, &[b't'; 254])
        .with_body(&[7; 20])
        .bytes();
    class.each(|class, session| {
        for packet in whole_upload(&file) {
            class.send(session, packet);
        }
    });
    class
}

/// Directories of one file: just begun, or with all bytes of a short one or 256 of a long one sent.
fn directories_of_one() -> Proved {
    let mut class = with_long_headers();
    class.list(false);
    class.call(2, Act::Request);
    class.call(3, Act::Request);
    class.begin_packet()
}

/// Directories of the selection, up to their last byte.
fn directories_of_the_selection() -> Proved {
    let mut class = with_long_headers();
    class.list(true);
    for (session, requests) in [(2, 3), (3, 1), (4, 6)] {
        (0..requests).for_each(|_| class.call(session, Act::Request));
    }
    class.begin_packet()
}

pub fn of_one_case() -> [Proved; 6] {
    [
        uploads_begun(),
        uploads_whole(),
        uploads_ignored(),
        downloads_aborted(),
        directories_of_one(),
        directories_of_the_selection(),
    ]
}

/// So many complete files, all of them selected on each of four sessions; the downlinks are idle.
pub fn all_selected(files: usize) -> Pair {
    let mut class = Class::with_files(start((2 * files, files, 4, files), 0), files, &[8; 300]);
    class.each(|class, session| class.send(session, select(&[0x83, 2, 0, 1, b'*'])));
    class.pair
}

/// Nearly all blocks and places of the largest store are taken; each session is in another case, with a full selection: one with ten of its files in a
/// directory.
pub fn largest() -> Proved {
    let mut class = Class::with_files(start((4096, 256, 4, 50), 0), 252, &[6; 4000]);
    for (session, sent) in [(1, 200), (2, 0), (3, 256)] {
        class.send(session, upload(0, 200));
        class.send(session, data(&vec![4; sent]));
    }
    class.download();
    class.call(1, Act::Request);
    (0..17).for_each(|_| class.call(2, Act::Request));
    class.send(3, nak());
    // DATA_END and DL_ABORTED_RESP, and the downlink is idle
    class.send(4, nak());
    class.call(4, Act::Request);
    class.send(4, directory(false, 0));
    (0..2).for_each(|_| class.call(4, Act::Request));
    class.begin_packet()
}
