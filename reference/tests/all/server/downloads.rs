//! Downloads: their refusals, what goes out, and how they end.

use super::{
    data_line, f80, file_of, go, in_states, Down, Up, ABORTED, ACKNOWLEDGED, COMPLETED, END,
    NOTHING,
};
use crate::common::{ack, data, data_end, download, hex, nak, packet, select_above, upload, Desk};
use reference::draft::Draft;
use reference::packet::Type;
use reference::server::{Answer, Downlink};

#[test]
fn a_download_not_9_bytes_long() {
    for length in (0..=256).filter(|&length| length != 9) {
        let mut desk = Desk::opened();
        let before = desk.server.clone();
        let told = desk.rx(1, &packet(Type::DownloadCmd, &vec![0; length]));
        assert_eq!(told, ["DL_ERROR_RESP 01"]);
        assert_eq!(desk.server, before);
    }
}

#[test]
fn downloads_refused_in_order() {
    let mut desk = Desk::opened();
    let one = Draft::new().with_item(0x14, b"A").bytes();
    let length = one.len() as u32;
    desk.store(1, &one);
    desk.hear(1, &upload(500));
    let before = desk.server.clone();
    let refused = |desk: &mut Desk, number, offset, lock| {
        let told = desk.rx(1, &download(number, offset, lock));
        assert_eq!(desk.server, before);
        told.concat()
    };
    assert_eq!(refused(&mut desk, 0, 0, 0), "DL_ERROR_RESP 05");
    assert_eq!(refused(&mut desk, 0, 999, 9), "DL_ERROR_RESP 05");
    assert_eq!(refused(&mut desk, 3, 0, 0), "DL_ERROR_RESP 04");
    assert_eq!(refused(&mut desk, 3, 999, 9), "DL_ERROR_RESP 04");
    assert_eq!(refused(&mut desk, u32::MAX, 0, 0), "DL_ERROR_RESP 04");
    assert_eq!(refused(&mut desk, 2, 0, 0), "DL_ERROR_RESP 0b");
    assert_eq!(refused(&mut desk, 2, 999, 9), "DL_ERROR_RESP 0b");
    assert_eq!(refused(&mut desk, 1, length + 1, 0), "DL_ERROR_RESP 02");
    assert_eq!(refused(&mut desk, 1, u32::MAX, 9), "DL_ERROR_RESP 02");
    assert_eq!(refused(&mut desk, 1, length, 2), "DL_ERROR_RESP 0a");
    assert_eq!(refused(&mut desk, 1, 0, 255), "DL_ERROR_RESP 0a");
    assert_eq!(desk.rx(1, &download(1, length, 1)), [END]);
}

#[test]
fn a_download_of_an_own_or_foreign_partial() {
    let mut desk = Desk::opened();
    desk.open(2);
    desk.hear(1, &[upload(80), data(&f80())].concat());
    for session in 1..=2 {
        let told = desk.rx(session, &download(1, 0, 0));
        assert_eq!(told, ["DL_ERROR_RESP 0b"]);
    }
}

#[test]
fn data_as_full_as_can_be_from_any_offset() {
    let mut desk = Desk::opened();
    desk.store(1, &file_of(512));
    let stored = desk.contents(1).unwrap();
    for offset in [0usize, 1, 255, 256, 257, 511, 512] {
        let told = desk.rx(1, &download(1, offset as u32, 0));
        let mut expected: Vec<String> = stored[offset..].chunks(256).map(data_line).collect();
        expected.push(END.to_string());
        assert_eq!(told, expected, "offset {offset}");
        assert_eq!(desk.hear(1, &ack(0)), [COMPLETED]);
    }
}

#[test]
fn the_command_itself_yields_nothing() {
    let mut desk = Desk::opened();
    desk.store(1, &f80());
    assert_eq!(desk.receive(1, &download(1, 0, 0)), Answer::Quiet(11));
    assert!(matches!(desk.request(1), Answer::Sent(0, _)));
}

#[test]
fn what_moves_the_place_in_the_selection() {
    let mut desk = Desk::opened();
    desk.store(1, &f80());
    desk.store(1, &file_of(100));
    desk.hear(1, &select_above(0));
    let position = |desk: &Desk| desk.server.sessions[0].as_ref().unwrap().selection.position;
    assert_eq!(desk.hear(1, &download(0, 81, 0)), ["DL_ERROR_RESP 02"]);
    assert_eq!(desk.hear(1, &download(0, 0, 1)), ["DL_ERROR_RESP 0a"]);
    assert_eq!(position(&desk), 0);
    desk.rx(1, &download(1, 0, 0));
    desk.hear(1, &ack(0));
    assert_eq!(position(&desk), 0);
    // An accepted command moves, also where the download is then broken off.
    assert_eq!(desk.hear(1, &download(0, 0, 0)), NOTHING);
    assert_eq!(position(&desk), 1);
    assert_eq!(desk.rx(1, &nak()), [END, ABORTED]);
    assert_eq!(position(&desk), 1);
    let told = desk.rx(1, &download(0, 0, 0));
    assert_eq!(told[0], data_line(&desk.contents(2).unwrap()));
    assert_eq!(position(&desk), 2);
    desk.hear(1, &ack(0));
    assert_eq!(desk.hear(1, &download(0, 0, 0)), ["DL_ERROR_RESP 05"]);
}

#[test]
fn acknowledgements_and_destinations() {
    let file = Draft::new()
        .with_item(0x14, b"A")
        .with_item(0x14, b"")
        .bytes();
    let cases: [(&[u8], &str); 6] = [
        (&[0], COMPLETED),
        (&[1], COMPLETED),
        (&[2], COMPLETED),
        (&[3], ABORTED),
        (&[255], ABORTED),
        (&[0, 0], ABORTED),
    ];
    for (information, told) in cases {
        let mut desk = Desk::opened();
        desk.store(1, &file);
        desk.rx(1, &download(1, 0, 0));
        let store = desk.server.store.clone();
        assert_eq!(desk.rx(1, &packet(Type::DlAckCmd, information)), [told]);
        assert_eq!(desk.downlink(1), Downlink::Idle);
        assert_eq!(desk.server.store, store);
    }
    let mut desk = Desk::opened();
    desk.store(1, &file);
    desk.rx(1, &download(1, 0, 0));
    assert_eq!(desk.rx(1, &hex("000c")), [ABORTED]);
}

#[test]
fn more_destinations_than_a_byte_can_name() {
    let mut draft = Draft::new();
    for _ in 0..300 {
        draft = draft.with_item(0x14, b"");
    }
    let file = draft.bytes();
    let mut desk = Desk::opened();
    desk.store(1, &file);
    let length = file.len() as u32;
    assert_eq!(desk.rx(1, &download(1, length, 255)), [END]);
    assert_eq!(desk.rx(1, &ack(255)), [COMPLETED]);
}

#[test]
fn a_nak_before_data_end() {
    let mut desk = Desk::opened();
    desk.store(1, &file_of(600));
    // At once, after some DATA, and after all DATA.
    for requests in 0..=3 {
        desk.hear(1, &download(1, 0, 0));
        for _ in 0..requests {
            assert!(matches!(desk.request(1), Answer::Sent(0, _)));
        }
        assert_eq!(desk.hear(1, &nak()), [END]);
        assert!(matches!(desk.downlink(1), Downlink::Aborting { .. }));
        // Uplink packets pass.
        assert_eq!(desk.hear(1, &hex("0003")), ["UL_ERROR_RESP 01"]);
        assert_eq!(desk.pump(1), [ABORTED]);
        assert_eq!(desk.downlink(1), Downlink::Idle);
    }
}

#[test]
fn every_downlink_command_while_aborting_closes() {
    for command in [
        nak(),
        ack(0),
        select_above(0),
        download(1, 0, 0),
        hex("040e00000000"),
    ] {
        let mut desk = in_states(Up::Receiving, Down::Aborting);
        assert_eq!(desk.hear(1, &command), ["closed"]);
    }
}

#[test]
fn a_nak_after_data_end() {
    let mut desk = Desk::opened();
    desk.store(1, &f80());
    desk.rx(1, &download(1, 0, 0));
    assert_eq!(desk.hear(1, &nak()), [ABORTED]);
    assert_eq!(desk.pump(1), NOTHING);
    assert_eq!(desk.downlink(1), Downlink::Idle);
}

#[test]
fn an_upload_and_a_download_at_once() {
    let mut desk = Desk::opened();
    desk.store(1, &file_of(600));
    let second = file_of(500);
    desk.hear(1, &download(1, 0, 0));
    desk.hear(1, &upload(500));
    let mut told: Vec<String> = Vec::new();
    for piece in second.chunks(100) {
        told.extend(desk.hear(1, &packet(Type::Data, piece)));
        if let Answer::Sent(_, packet) = desk.request(1) {
            told.push(packet.kind.name().to_string());
        }
    }
    assert_eq!(told, ["DATA", "DATA", "DATA", "DATA_END"]);
    assert_eq!(desk.hear(1, &data_end()), [ACKNOWLEDGED]);
    assert_eq!(desk.hear(1, &ack(0)), [COMPLETED]);
}

#[test]
fn a_lost_link_ends_a_download() {
    let mut desk = Desk::opened();
    desk.store(1, &f80());
    desk.hear(1, &download(1, 0, 0));
    desk.lose(1);
    desk.open(1);
    assert_eq!(desk.request(1), Answer::Quiet(0));
    assert_eq!(desk.hear(1, &ack(0)), ["closed"]);
}

#[test]
fn an_unfinished_packet_is_forgotten_with_the_link() {
    let mut desk = Desk::opened();
    desk.hear(1, &hex("0803 0000"));
    desk.lose(1);
    desk.open(1);
    assert_eq!(desk.hear(1, &upload(80)), [go(1, 0)]);
}
