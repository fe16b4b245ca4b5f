//! The table of expected packets: which packet closes the link in which state.

use super::{f80, go, in_states, Down, Up, ACKNOWLEDGED, NOTHING};
use crate::common::{data, data_end, download, hex, nak, proceed, select_above, upload, Desk};
use reference::server::{Answer, Uplink};

/// Whether the paper expects a packet of that type and length.
fn expected(up: Up, down: Down, kind: u8, length: usize) -> bool {
    match kind {
        0 => up != Up::Idle,
        1 => up != Up::Idle && length == 0,
        3 => up == Up::Idle,
        8 | 14 | 15 | 16 => down == Down::Idle,
        12 => down == Down::Ended,
        13 => down != Down::Aborting && length == 0,
        _ => false,
    }
}

#[test]
fn every_type_in_every_state_closes_or_not() {
    for up in [Up::Idle, Up::Receiving, Up::Ignoring] {
        for down in [
            Down::Idle,
            Down::Sending,
            Down::Ended,
            Down::Aborting,
            Down::Listing,
        ] {
            let desk = in_states(up, down);
            for kind in 0..32 {
                for length in [0, 1, 2, 4, 7, 8, 9, 10, 80, 255, 256] {
                    close_or_not(&desk, up, down, kind, length);
                }
            }
        }
    }
}

fn close_or_not(desk: &Desk, up: Up, down: Down, kind: u8, length: usize) {
    let mut desk = desk.clone();
    let files = desk.server.store.clone();
    let mut bytes = vec![(length % 256) as u8, kind | ((length / 256) << 5) as u8];
    bytes.extend(vec![0x11; length]);
    // All but the last byte does nothing.
    let last = bytes.len() - 1;
    assert_eq!(desk.receive(1, &bytes[..last]), Answer::Quiet(last));
    assert_eq!(desk.server.store, files);
    let answer = desk.receive(1, &bytes[last..]);
    if expected(up, down, kind, length) {
        assert!(desk.is_open(1), "{up:?} {down:?} {kind} {length}");
        assert!(matches!(answer, Answer::Quiet(1) | Answer::Sent(1, _)));
    } else {
        assert_eq!(answer, Answer::Closed(1), "{up:?} {down:?} {kind} {length}");
        assert!(!desk.is_open(1));
        // Closing is losing the link: no file changes.
        assert_eq!(desk.server.store, files);
    }
}

#[test]
fn a_nak_on_an_idle_downlink_is_harmless() {
    let mut desk = Desk::opened();
    let before = desk.server.clone();
    assert_eq!(desk.rx(1, &nak()), NOTHING);
    assert_eq!(desk.server, before);
    assert_eq!(desk.rx(1, &hex("010d00")), ["closed"]);
}

#[test]
fn an_ack_on_an_idle_downlink_closes_whatever_its_length() {
    for bytes in ["010c00", "000c", "020c0000"] {
        let mut desk = Desk::opened();
        assert_eq!(desk.rx(1, &hex(bytes)), ["closed"]);
    }
}

#[test]
fn an_upload_command_during_an_upload_closes_and_keeps_the_partial() {
    for again in [proceed(1, 80), upload(80), hex("0103 00")] {
        let mut desk = Desk::opened();
        desk.hear(1, &upload(80));
        assert_eq!(desk.hear(1, &again), ["closed"]);
        desk.open(1);
        assert_eq!(desk.hear(1, &proceed(1, 80)), [go(1, 0)]);
    }
}

#[test]
fn one_data_end_is_swallowed_after_a_nak_of_data() {
    let mut desk = Desk::opened();
    desk.hear(1, &upload(80));
    assert_eq!(desk.hear(1, &data(&[0; 81])), ["UL_NAK_RESP 10"]);
    assert_eq!(desk.hear(1, &data(&[0; 20])), NOTHING);
    assert_eq!(desk.hear(1, &data_end()), NOTHING);
    assert_eq!(desk.uplink(1), Uplink::Idle);
    assert_eq!(desk.hear(1, &data_end()), ["closed"]);
}

#[test]
fn a_data_end_after_its_own_nak_closes() {
    let mut desk = Desk::opened();
    desk.hear(1, &upload(80));
    assert_eq!(desk.hear(1, &data_end()), ["UL_NAK_RESP 10"]);
    assert_eq!(desk.hear(1, &data_end()), ["closed"]);
}

#[test]
fn a_data_end_with_information_closes_and_keeps_the_partial() {
    let mut desk = Desk::opened();
    desk.hear(1, &[upload(80), data(&f80())].concat());
    assert_eq!(desk.hear(1, &hex("010100")), ["closed"]);
    desk.open(1);
    assert_eq!(desk.hear(1, &proceed(1, 80)), [go(1, 80)]);
    assert_eq!(desk.hear(1, &data_end()), [ACKNOWLEDGED]);
}

#[test]
fn a_closing_forgets_the_session_alone() {
    let mut desk = Desk::opened();
    desk.store(1, &f80());
    desk.open(2);
    desk.hear(1, &select_above(0));
    desk.hear(1, &upload(300));
    desk.hear(1, &data(&[5; 200]));
    desk.hear(1, &download(0, 0, 0));
    desk.hear(2, &hex("0803"));
    let other = desk.server.sessions[1].clone();
    let before = desk.server.store.clone();
    assert_eq!(desk.hear(1, &select_above(0)), ["closed"]);
    assert_eq!(desk.server.store, before);
    assert_eq!(desk.server.sessions[0], None);
    assert_eq!(desk.server.sessions[1], other);
    desk.open(1);
    assert_eq!(desk.hear(1, &download(0, 0, 0)), ["DL_ERROR_RESP 05"]);
}
