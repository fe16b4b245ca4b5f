//! The facts of refusal 35 on the second program's own state: each is broken
//! in a state in which the others hold.

use crate::common::{data, download, nak, select, upload, Desk};
use reference::draft::Draft;
use reference::packet::Frame;
use reference::server::{Directory, Downlink, Listed, Server, Session, Sizes, Uplink};
use reference::store::File;

/// Two complete files, of which the second is longer than a block, and the
/// partial files of sessions 1 and 4. Sessions 1, 2 and 3 are downloading:
/// sending, ended and aborting. Session 4 has a full selection.
fn class() -> Server {
    let mut desk = Desk::sized(Sizes {
        blocks: 9,
        files: 6,
        sessions: 4,
        maxsel: 2,
    });
    (1..=4).for_each(|session| {
        desk.open(session);
    });
    desk.clock = 100;
    desk.store(1, &Draft::new().bytes());
    desk.store(1, &Draft::new().with_body(&[7; 300]).bytes());
    for session in [1, 4] {
        desk.hear(session, &[upload(300), data(&[1; 20])].concat());
    }
    (1..=3).for_each(|session| {
        desk.hear(session, &download(2, 0, 0));
    });
    desk.request(1);
    desk.pump(2);
    desk.hear(3, &nak());
    desk.hear(4, &select(&[0x83, 2, 0, 1, b'*']));
    desk.hear(4, &[100, 0, 1]);
    desk.server
}

fn file(server: &mut Server, place: usize) -> &mut File {
    server.store.places[place].as_mut().unwrap()
}

fn session(server: &mut Server, number: usize) -> &mut Session {
    server.sessions[number - 1].as_mut().unwrap()
}

fn received(server: &mut Server, received: u32) {
    session(server, 1).uplink = Uplink::Receiving {
        place: 2,
        offset: 0,
        received,
    };
}

fn sending(server: &mut Server, place: usize, sent: u32) {
    session(server, 1).downlink = Downlink::Sending {
        place,
        offset: 0,
        sent,
    };
}

/// Session 4, whose selection is files 1 and 2, lists something.
fn listing(server: &mut Server, listed: Listed, sent: u32) {
    session(server, 4).downlink = Downlink::Listing {
        directory: Directory { long: true, listed },
        sent,
    };
}

fn listing_selected(server: &mut Server, first: usize, end: usize) {
    listing(server, Listed::Selected { first, end }, 0);
}

type Change = (&'static str, fn(&mut Server));

const CHANGES: [Change; 46] = [
    ("the sizes are in the table", |s| s.sizes.maxsel = 51),
    ("there are so many blocks", |s| s.store.free.push(true)),
    ("each block has its bytes", |s| s.store.disk.push(0)),
    ("there are so many file places", |s| s.sizes.files = 7),
    ("there are so many sessions", |s| s.sessions.push(None)),
    ("a file's blocks rise", |s| file(s, 1).blocks.reverse()),
    ("a file's block is one", |s| file(s, 1).blocks[1] = 9),
    ("a block belongs to one file", |s| {
        file(s, 2).blocks[0] = 0;
    }),
    ("a block is free or belongs to a file", |s| {
        s.store.free[0] = true;
    }),
    ("a block is free or belongs to a file", |s| {
        s.store.free[8] = false;
    }),
    ("a file holds the blocks of its length", |s| {
        file(s, 2).length = 256;
    }),
    ("a file holds the blocks of its length", |s| {
        file(s, 2).length = 513;
    }),
    ("a file's number was given", |s| s.store.last_number = 3),
    ("a file's number was given", |s| file(s, 3).number = 5),
    ("a file's number was given", |s| file(s, 3).number = 0),
    ("no more bytes than announced", |s| {
        file(s, 2).received = 301
    }),
    ("a file's upload time was given", |s| {
        s.store.last_time = 100
    }),
    ("a file's upload time was given", |s| {
        file(s, 1).upload_time = Some(0);
    }),
    ("a complete file has all its bytes", |s| {
        file(s, 1).received -= 1;
    }),
    ("no two files have one number", |s| file(s, 3).number = 3),
    ("no two files have one upload time", |s| {
        file(s, 1).upload_time = Some(100);
    }),
    ("an upload names a file", |s| {
        s.store.places[2] = None;
        s.store.free[3] = true;
        s.store.free[4] = true;
    }),
    ("an upload names a file", |s| {
        session(s, 1).uplink = Uplink::Receiving {
            place: usize::MAX,
            offset: 0,
            received: 20,
        };
    }),
    ("an upload's file is partial", |s| {
        session(s, 1).uplink = Uplink::Receiving {
            place: 0,
            offset: 0,
            received: 80,
        };
    }),
    ("an upload's bytes are within the file's", |s| {
        received(s, 21);
    }),
    ("an upload's bytes are within the file's", |s| {
        session(s, 1).uplink = Uplink::Receiving {
            place: 2,
            offset: u32::MAX,
            received: 21,
        };
    }),
    ("a file being sent is complete", |s| sending(s, 2, 0)),
    ("a file being sent is complete", |s| sending(s, 4, 0)),
    ("the bytes sent are within the file", |s| sending(s, 1, 381)),
    ("the bytes sent are within the file", |s| {
        session(s, 1).downlink = Downlink::Sending {
            place: 1,
            offset: u32::MAX,
            sent: 1,
        };
    }),
    ("a file that was sent is complete", |s| {
        session(s, 2).downlink = Downlink::Ended { place: 3 };
    }),
    ("a file being aborted is complete", |s| {
        session(s, 3).downlink = Downlink::Aborting { place: 6 };
    }),
    ("at most MAXSEL files are selected", |s| {
        session(s, 4).selection.numbers.push(1);
    }),
    ("the next selected file is one of them", |s| {
        session(s, 4).selection.position = 3;
    }),
    ("a selected file is complete", |s| {
        session(s, 4).selection.numbers[1] = 3;
    }),
    ("a selected file is complete", |s| {
        session(s, 4).selection.numbers[0] = 0;
    }),
    ("a listed file is complete", |s| {
        listing(s, Listed::One { place: 2 }, 0);
    }),
    ("a listed file is complete", |s| {
        listing(s, Listed::One { place: 6 }, 0);
    }),
    ("listed files are selected", |s| listing_selected(s, 0, 3)),
    ("listed files are selected", |s| listing_selected(s, 2, 1)),
    ("at most ten files are listed", |s| {
        s.sizes.maxsel = 11;
        session(s, 4).selection.numbers = vec![1; 11];
        listing_selected(s, 0, 11);
    }),
    ("the bytes listed are within the entries", |s| {
        listing(s, Listed::One { place: 1 }, 81);
    }),
    ("the bytes listed are within the entries", |s| {
        listing(s, Listed::Selected { first: 0, end: 2 }, 161);
    }),
    ("a packet begun announces at most 256", |s| {
        session(s, 4).frame = Frame::holding(&[1, 0x20]);
    }),
    ("a packet begun is not at its end", |s| {
        session(s, 4).frame = Frame::holding(&[1, 0, 1]);
    }),
    ("a packet begun is not at its end", |s| {
        session(s, 4).frame = Frame::holding(&[0, 1]);
    }),
];

/// What calls keep besides: no fact of 35.
const KEPT: [Change; 3] = [
    ("an upload's bytes are the file's", |s| received(s, 19)),
    ("two sessions do not upload one file", |s| {
        session(s, 4).uplink = session(s, 1).uplink;
    }),
    ("the place is behind the listed files", |s| {
        listing_selected(s, 0, 1);
    }),
];

#[test]
fn what_calls_keep_besides_is_no_fact_of_35() {
    for (fact, change) in KEPT {
        let mut server = class();
        assert_eq!(server.kept(), Ok(()));
        change(&mut server);
        assert_eq!(server.kept(), Err(fact));
        assert_eq!(server.sound(), Ok(()));
    }
}

#[test]
fn each_broken_fact_is_found() {
    for (fact, change) in CHANGES {
        let mut server = class();
        assert_eq!(server.sound(), Ok(()));
        change(&mut server);
        assert_eq!(server.sound(), Err(fact));
    }
}

/// Nothing else is a fact of 35: D57 and D58 name what is not looked at.
#[test]
fn what_breaks_no_fact() {
    let changes: [fn(&mut Server); 8] = [
        |s| session(s, 4).selection.numbers = vec![2, 2],
        |s| session(s, 4).selection.position = 2,
        |s| session(s, 4).frame = Frame::holding(&[255]),
        |s| sending(s, 1, 380),
        |s| listing(s, Listed::Selected { first: 0, end: 2 }, 160),
        |s| listing(s, Listed::One { place: 1 }, 80),
        |s| s.store.disk[0] ^= 1,
        |s| s.store.last_number = u32::MAX,
    ];
    for change in changes {
        let mut server = class();
        change(&mut server);
        assert_eq!(server.sound(), Ok(()));
    }
}
