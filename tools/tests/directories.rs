//! A directory under way, as the state that is read and its words say: no script shows it, since `passday` asks until nothing is due.
use bindings::server::{Answer, Server};
use tools::bytes::packet;
use tools::data;
use tools::draft::Draft;
use tools::play::SIZES;
use tools::state::{self, Downlink, Session, State};

const SHORT: u8 = 14;
const LONG: u8 = 15;

/// Four complete files of 80 bytes, all selected on session 2.
fn class() -> Server {
    let mut server = Server::new(SIZES).expect("sizes of the table");
    server.open(1, 1000);
    server.open(2, 1000);
    let file = Draft::default().bytes();
    for _ in 0..4 {
        server.receive(
            1,
            1000,
            &packet(3, &[0, 0, 0, 0, file.len() as u8, 0, 0, 0]),
        );
        server.receive(1, 1000, &packet(0, &file));
        let accepted = server.receive(1, 1000, &packet(1, &[]));
        assert_eq!(accepted, Answer::Sent(2, vec![0, 6]));
    }
    let selected = server.receive(2, 1000, &packet(16, &[0x90, 0x12, 0, 1, 0]));
    assert_eq!(selected, Answer::Sent(7, vec![2, 17, 4, 0]));
    server
}

/// Session 2 after a command and so many requests.
fn after(server: &mut Server, kind: u8, number: u8, requests: usize) -> Session {
    let command = packet(kind, &[number, 0, 0, 0]);
    assert_eq!(server.receive(2, 1000, &command), Answer::Quiet(6));
    for _ in 0..requests {
        assert!(matches!(server.request(2), Answer::Sent(..)));
    }
    state::read(server, &State::default()).sessions[1].clone()
}

#[test]
fn a_directory_under_way_is_read_from_the_state() {
    let listing = |long: bool, files: &[u32], behind: usize, bytes: usize| Downlink::Listing {
        long,
        files: files.to_vec(),
        behind,
        bytes,
    };
    let rows = [
        (SHORT, 0, 0, listing(false, &[1, 2, 3, 4], 0, 0), 4),
        (SHORT, 0, 1, listing(false, &[1, 2, 3, 4], 3, 16), 4),
        (LONG, 0, 2, listing(true, &[1, 2, 3, 4], 4, 0), 4),
        (LONG, 0, 3, Downlink::Idle, 4),
        (SHORT, 3, 0, listing(false, &[3], 0, 0), 0),
        (LONG, 3, 1, listing(true, &[3], 1, 0), 0),
        (LONG, 3, 2, Downlink::Idle, 0),
    ];
    for (kind, number, requests, down, taken) in rows {
        let session = after(&mut class(), kind, number, requests);
        assert_eq!((session.down, session.taken), (down, taken));
    }
}

#[test]
fn a_directory_under_way_in_words() {
    let session = after(&mut class(), SHORT, 0, 1);
    let words = "listing files 1, 2, 3, 4, short: 3 sent, 16 bytes of the next";
    assert_eq!(data::downlink(&session), words);
    let session = after(&mut class(), LONG, 2, 0);
    let words = "listing file 2, long: 0 sent, 0 bytes of the next";
    assert_eq!(data::downlink(&session), words);
}
