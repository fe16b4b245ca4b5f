//! The bytes of a link: how calls take them, and where a link is closed.

use super::{f80, COMPLETED, END, NOTHING};
use crate::common::{ack, data, data_end, download, hex, upload, Desk};
use reference::server::Answer;

#[test]
fn zero_bytes_are_taken_and_change_nothing() {
    let mut desk = Desk::opened();
    let before = desk.server.clone();
    assert_eq!(desk.receive(1, b""), Answer::Quiet(0));
    assert_eq!(desk.server, before);
}

#[test]
fn one_packet_a_call() {
    let mut desk = Desk::opened();
    let stream = [upload(80), data(&f80()), data_end()].concat();
    assert!(matches!(desk.receive(1, &stream), Answer::Sent(10, _)));
    assert_eq!(desk.receive(1, &stream[10..]), Answer::Quiet(82));
    assert!(matches!(desk.receive(1, &stream[92..]), Answer::Sent(2, _)));
}

#[test]
fn closing_says_how_many_bytes_it_took() {
    for (bytes, took) in [
        ("0120", 2),
        ("013f", 2),
        ("0120 0000", 2),
        ("ffff", 2),
        ("001f", 2),
        ("051f 0102030405 06", 7),
        ("0012", 2),
        ("0001", 2),
        ("0000 0000", 2),
    ] {
        let mut desk = Desk::opened();
        assert_eq!(desk.receive(1, &hex(bytes)), Answer::Closed(took));
        assert_eq!(desk.receive(1, &hex(bytes)), Answer::Refused(34));
        assert_eq!(desk.server, Desk::new().server);
    }
}

#[test]
fn a_length_of_256_is_accepted_and_257_closes() {
    let mut desk = Desk::opened();
    desk.hear(1, &upload(600));
    assert_eq!(desk.hear(1, &data(&[7; 256])), NOTHING);
    assert_eq!(desk.receive(1, &hex("01")), Answer::Quiet(1));
    assert_eq!(desk.receive(1, &hex("20")), Answer::Closed(1));
    assert_eq!(desk.contents(1), Some(vec![7; 256]));
}

#[test]
fn the_state_is_judged_at_the_last_byte() {
    let mut desk = Desk::opened();
    desk.store(1, &f80());
    desk.hear(1, &download(1, 80, 0));
    // The acknowledgement begins before DATA_END went out and ends after it.
    assert_eq!(desk.receive(1, &hex("010c")), Answer::Quiet(2));
    assert_eq!(desk.pump(1), [END]);
    assert_eq!(desk.hear(1, &[0]), [COMPLETED]);
    // It was expected at the first byte and is not at the last.
    desk.hear(1, &download(1, 80, 0));
    desk.pump(1);
    let mut other = desk.clone();
    assert_eq!(desk.hear(1, &ack(0)), [COMPLETED]);
    assert_eq!(desk.receive(1, &hex("010c")), Answer::Quiet(2));
    assert_eq!(desk.hear(1, &[0]), ["closed"]);
    assert_eq!(
        other.hear(1, &[ack(0), ack(0)].concat()),
        [COMPLETED, "closed"]
    );
}
