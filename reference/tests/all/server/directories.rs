//! Directories: their refusals, what goes out, and how they end.

use super::{
    data_line, f80, file_of, go, in_states, Down, Up, ABORTED, ACKNOWLEDGED, COMPLETED, END,
    NOTHING,
};
use crate::common::{
    ack, data_end, directory, download, hex, nak, packet, select, select_above, upload, Desk,
};
use reference::draft::Draft;
use reference::header::{check, long_entry, short_entry};
use reference::packet::Type;
use reference::server::{Answer, Downlink, Sizes};

const BOTH: [Type; 2] = [Type::DirShortCmd, Type::DirLongCmd];

/// The entry of a stored file, by the papers' fixed positions: 01 to 0b stand
/// at 2 to 69, and body_offset is the header's length.
fn entry(kind: Type, file: &[u8]) -> Vec<u8> {
    let length = usize::from(file[68]) + 256 * usize::from(file[69]);
    if kind == Type::DirLongCmd {
        return file[..length].to_vec();
    }
    let mut at = 70;
    while file[at..at + 3] != [0x12, 0, 4] {
        at += 3 + usize::from(file[at + 2]);
    }
    [&file[..70], &file[at..at + 7], &[0; 3]].concat()
}

/// What a directory of these files must print.
fn printed(desk: &Desk, kind: Type, numbers: &[u32]) -> Vec<String> {
    let entry = |number: &u32| entry(kind, &desk.contents(*number).unwrap());
    let bytes: Vec<u8> = numbers.iter().flat_map(entry).collect();
    let mut told: Vec<String> = bytes.chunks(256).map(data_line).collect();
    told.push(END.to_string());
    told
}

/// A file with an item of that many bytes ahead of upload_time.
fn with_item_of(length: usize) -> Draft {
    let mut draft = Draft::new().with_body(b"body");
    draft.items.insert(11, (0x24, vec![b'd'; length]));
    draft
}

fn position(desk: &Desk) -> usize {
    desk.server.sessions[0].as_ref().unwrap().selection.position
}

#[test]
fn a_directory_not_4_bytes_long() {
    for kind in BOTH {
        for length in (0..=256).filter(|&length| length != 4) {
            let mut desk = Desk::opened();
            desk.store(1, &f80());
            desk.hear(1, &select_above(0));
            let before = desk.server.clone();
            let told = desk.rx(1, &packet(kind, &vec![0; length]));
            assert_eq!(told, ["DL_ERROR_RESP 01"]);
            assert_eq!(desk.server, before);
        }
    }
}

#[test]
fn directories_refused_in_order() {
    for kind in BOTH {
        let mut desk = Desk::opened();
        desk.store(1, &f80());
        desk.hear(1, &upload(500));
        let before = desk.server.clone();
        for (number, told) in [
            (0, "DL_ERROR_RESP 05"),
            (3, "DL_ERROR_RESP 04"),
            (u32::MAX, "DL_ERROR_RESP 04"),
            (2, "DL_ERROR_RESP 0b"),
        ] {
            assert_eq!(desk.rx(1, &directory(kind, number)), [told]);
            assert_eq!(desk.server, before);
        }
        assert_eq!(desk.rx(1, &directory(kind, 1)), printed(&desk, kind, &[1]));
        // An empty selection is none.
        desk.hear(1, &select_above(u32::MAX));
        assert_eq!(desk.rx(1, &directory(kind, 0)), ["DL_ERROR_RESP 05"]);
    }
}

#[test]
fn the_smallest_file() {
    let mut desk = Desk::opened();
    desk.store(1, &f80());
    let stored = desk.contents(1).unwrap();
    for kind in BOTH {
        let told = desk.rx(1, &directory(kind, 1));
        assert_eq!(told, [data_line(&stored), END.to_string()]);
        assert_eq!(desk.downlink(1), Downlink::Idle);
    }
}

#[test]
fn the_stored_header_goes_out_and_not_the_body() {
    for length in [0, 1, 100, 163, 170, 171, 172, 173, 174, 175, 176, 177, 255] {
        let mut desk = Desk::opened();
        desk.store(1, &f80());
        let sent = with_item_of(length).bytes();
        let number = desk.store(1, &sent);
        assert_ne!(desk.contents(number).unwrap(), sent);
        for kind in BOTH {
            let told = desk.rx(1, &directory(kind, number));
            assert_eq!(told, printed(&desk, kind, &[number]), "{length}");
        }
    }
}

#[test]
fn a_short_entry_keeps_the_stored_order() {
    let mut desk = Desk::opened();
    let mut draft = Draft::new().without(0x12);
    for (id, data) in [(0x14, "A"), (0x22, "t"), (0x12, "1234"), (0x14, "B")] {
        draft = draft.with_item(id, data.as_bytes());
    }
    desk.store(1, &draft.with_body(b"xyz").bytes());
    let stored = desk.contents(1).unwrap();
    let short = short_entry(&stored);
    assert_eq!(short.len(), 80);
    assert_eq!(short[..70], stored[..70]);
    assert_eq!(short[70..], hex("1200 04 01000000 000000"));
    assert_eq!(short, entry(Type::DirShortCmd, &stored));
    let header = check(&stored, stored.len() as u32).unwrap();
    assert_eq!(long_entry(&stored), stored[..header.length]);
}

#[test]
fn a_header_over_many_blocks() {
    let mut desk = Desk::opened();
    let mut draft = Draft::new();
    for item in 0..60u8 {
        draft = draft.with_item(0x100 + u16::from(item), &[item; 255]);
    }
    desk.store(1, &draft.with_body(&[9; 700]).bytes());
    let told = desk.rx(1, &directory(Type::DirLongCmd, 1));
    assert_eq!(told.len(), (80 + 60 * 258 + 255) / 256 + 1);
    assert_eq!(told, printed(&desk, Type::DirLongCmd, &[1]));
    let told = desk.rx(1, &directory(Type::DirShortCmd, 1));
    assert_eq!(told, printed(&desk, Type::DirShortCmd, &[1]));
}

#[test]
fn entries_that_fill_their_last_data() {
    let mut desk = Desk::opened();
    // Headers of 256 bytes, with and without the border inside an entry.
    for length in [173, 93, 253] {
        desk.store(1, &with_item_of(length).bytes());
    }
    desk.hear(1, &select_above(0));
    let told = desk.rx(1, &directory(Type::DirLongCmd, 1));
    assert_eq!(told.len(), 2);
    let told = desk.rx(1, &directory(Type::DirLongCmd, 0));
    assert_eq!(told, printed(&desk, Type::DirLongCmd, &[1, 2, 3]));
    assert_eq!(told.len(), 4);
}

#[test]
fn ten_of_twelve_then_two_then_none() {
    for kind in BOTH {
        let mut desk = Desk::opened();
        for number in 0..12 {
            desk.store(1, &with_item_of(20 * number).bytes());
        }
        assert_eq!(desk.hear(1, &select_above(0)), ["SELECT_RESP 0c00"]);
        let first: Vec<u32> = (1..=10).collect();
        let told = desk.rx(1, &directory(kind, 0));
        assert_eq!(told, printed(&desk, kind, &first));
        assert_eq!(position(&desk), 10);
        let told = desk.rx(1, &directory(kind, 0));
        assert_eq!(told, printed(&desk, kind, &[11, 12]));
        assert_eq!(position(&desk), 12);
        assert_eq!(desk.rx(1, &directory(kind, 0)), ["DL_ERROR_RESP 05"]);
        assert_eq!(desk.rx(1, &download(0, 0, 0)), ["DL_ERROR_RESP 05"]);
        desk.hear(1, &select_above(0));
        let told = desk.rx(1, &directory(kind, 0));
        assert_eq!(told, printed(&desk, kind, &first));
    }
}

#[test]
fn every_count_of_selected_files() {
    let mut desk = Desk::sized(Sizes {
        blocks: 64,
        files: 40,
        sessions: 1,
        maxsel: 25,
    });
    desk.open(1);
    for count in 1..=32u32 {
        desk.store(1, &f80());
        desk.hear(1, &select_above(0));
        let selected = count.min(25);
        for first in (1..=selected).step_by(10) {
            let numbers: Vec<u32> = (first..=selected.min(first + 9)).collect();
            let told = desk.rx(1, &directory(Type::DirShortCmd, 0));
            assert_eq!(told, printed(&desk, Type::DirShortCmd, &numbers));
        }
        let told = desk.rx(1, &directory(Type::DirLongCmd, 0));
        assert_eq!(told, ["DL_ERROR_RESP 05"]);
    }
}

#[test]
fn the_order_is_that_of_upload_times() {
    let mut desk = Desk::opened();
    desk.open(2);
    // Number 1 is complete after number 2.
    assert_eq!(desk.hear(1, &upload(80)), [go(1, 0)]);
    desk.store(2, &file_of(90));
    let rest = [packet(Type::Data, &f80()), data_end()].concat();
    assert_eq!(desk.hear(1, &rest), [ACKNOWLEDGED]);
    desk.hear(1, &select_above(0));
    let told = desk.rx(1, &directory(Type::DirLongCmd, 0));
    assert_eq!(told, printed(&desk, Type::DirLongCmd, &[2, 1]));
}

#[test]
fn directories_and_downloads_move_one_place() {
    let mut desk = Desk::opened();
    for _ in 0..14 {
        desk.store(1, &f80());
    }
    desk.hear(1, &select_above(0));
    let download_0 = |desk: &mut Desk, number| {
        let told = desk.rx(1, &download(0, 0, 0));
        assert_eq!(told[0], data_line(&desk.contents(number).unwrap()));
        assert_eq!(desk.hear(1, &ack(0)), [COMPLETED]);
    };
    download_0(&mut desk, 1);
    // A file by its number, a refused one and one by a partial move nothing.
    desk.rx(1, &directory(Type::DirLongCmd, 9));
    desk.rx(1, &directory(Type::DirLongCmd, 99));
    assert_eq!(position(&desk), 1);
    let told = desk.rx(1, &directory(Type::DirShortCmd, 0));
    let numbers: Vec<u32> = (2..=11).collect();
    assert_eq!(told, printed(&desk, Type::DirShortCmd, &numbers));
    download_0(&mut desk, 12);
    let told = desk.rx(1, &directory(Type::DirLongCmd, 0));
    assert_eq!(told, printed(&desk, Type::DirLongCmd, &[13, 14]));
    assert_eq!(desk.rx(1, &download(0, 0, 0)), ["DL_ERROR_RESP 05"]);
}

#[test]
fn the_command_itself_yields_nothing() {
    let mut desk = Desk::opened();
    desk.store(1, &f80());
    let command = directory(Type::DirShortCmd, 1);
    assert_eq!(desk.receive(1, &command), Answer::Quiet(6));
    assert!(matches!(desk.request(1), Answer::Sent(0, _)));
}

#[test]
fn a_nak_at_every_point() {
    for kind in BOTH {
        let mut desk = Desk::opened();
        for _ in 0..12 {
            desk.store(1, &with_item_of(200).bytes());
        }
        desk.hear(1, &select_above(0));
        let whole = desk.clone().rx(1, &directory(kind, 0));
        // Up to all DATA, and behind DATA_END.
        for requests in 0..=whole.len() {
            let mut desk = desk.clone();
            assert_eq!(desk.hear(1, &directory(kind, 0)), NOTHING);
            for _ in 0..requests {
                assert!(matches!(desk.request(1), Answer::Sent(0, _)));
            }
            let told = desk.hear(1, &nak());
            if requests < whole.len() {
                assert_eq!(told, [END]);
            } else {
                assert_eq!(told, NOTHING);
            }
            assert_eq!(desk.downlink(1), Downlink::Idle);
            assert_eq!(desk.pump(1), NOTHING);
            // The place is moved all the same, and a second NAK is harmless.
            assert_eq!(position(&desk), 10);
            assert_eq!(desk.hear(1, &nak()), NOTHING);
            let told = desk.rx(1, &directory(kind, 0));
            assert_eq!(told, printed(&desk, kind, &[11, 12]));
        }
    }
}

#[test]
fn any_other_downlink_command_closes() {
    for command in [
        ack(0),
        hex("000c"),
        select_above(0),
        select(b""),
        download(1, 0, 0),
        hex("0008"),
        directory(Type::DirShortCmd, 1),
        directory(Type::DirLongCmd, 0),
        hex("000e"),
        hex("010d00"),
    ] {
        let mut desk = in_states(Up::Receiving, Down::Listing);
        assert_eq!(desk.rx(1, &command), ["closed"]);
        desk.open(1);
        assert_eq!(desk.pump(1), NOTHING);
        assert_eq!(
            desk.rx(1, &directory(Type::DirLongCmd, 0)),
            ["DL_ERROR_RESP 05"]
        );
    }
}

#[test]
fn no_acknowledgement_is_expected_after_it() {
    for word in [ack(0), hex("000c")] {
        let mut desk = Desk::opened();
        desk.store(1, &f80());
        desk.rx(1, &directory(Type::DirLongCmd, 1));
        assert_eq!(desk.rx(1, &word), ["closed"]);
    }
    let mut desk = Desk::opened();
    desk.store(1, &f80());
    desk.rx(1, &directory(Type::DirLongCmd, 1));
    assert!(!desk.rx(1, &nak()).contains(&ABORTED.to_string()));
}

#[test]
fn an_upload_goes_on_beside_it() {
    let mut desk = Desk::opened();
    desk.store(1, &with_item_of(255).bytes());
    desk.hear(1, &directory(Type::DirLongCmd, 1));
    let expected = printed(&desk, Type::DirLongCmd, &[1]);
    let mut told = desk.hear(1, &upload(80));
    told.extend(desk.hear(1, &packet(Type::Data, &f80()[..50])));
    let mut listed = Vec::new();
    if let Answer::Sent(_, packet) = desk.request(1) {
        listed.push(format!(
            "DATA {}",
            crate::common::to_hex(&packet.information)
        ));
    }
    told.extend(desk.hear(1, &packet(Type::Data, &f80()[50..])));
    told.extend(desk.hear(1, &data_end()));
    assert_eq!(told, [go(2, 0), ACKNOWLEDGED.to_string()]);
    listed.extend(desk.pump(1));
    assert_eq!(listed, expected);
}

#[test]
fn a_file_complete_meanwhile_is_not_listed() {
    let mut desk = Desk::opened();
    desk.store(1, &f80());
    desk.hear(1, &select_above(0));
    desk.hear(1, &directory(Type::DirShortCmd, 0));
    desk.store(1, &f80());
    assert_eq!(desk.pump(1), printed(&desk, Type::DirShortCmd, &[1]));
    assert_eq!(
        desk.rx(1, &directory(Type::DirShortCmd, 0)),
        ["DL_ERROR_RESP 05"]
    );
}

#[test]
fn a_lost_link_forgets_it() {
    let mut desk = Desk::opened();
    desk.store(1, &f80());
    desk.hear(1, &select_above(0));
    desk.hear(1, &directory(Type::DirShortCmd, 0));
    desk.lose(1);
    desk.open(1);
    assert_eq!(desk.request(1), Answer::Quiet(0));
    assert_eq!(
        desk.rx(1, &directory(Type::DirShortCmd, 0)),
        ["DL_ERROR_RESP 05"]
    );
}

#[test]
fn sessions_list_apart() {
    let mut desk = Desk::opened();
    desk.open(2);
    for _ in 0..3 {
        desk.store(1, &f80());
    }
    for session in 1..=2 {
        desk.hear(session, &select_above(0));
        desk.hear(session, &directory(Type::DirLongCmd, 0));
    }
    let expected = printed(&desk, Type::DirLongCmd, &[1, 2, 3]);
    assert_eq!(desk.hear(1, &nak()), [END]);
    assert_eq!(desk.pump(2), expected);
}

#[test]
fn entries_of_bytes_that_are_no_header() {
    assert_eq!(long_entry(b""), b"");
    assert_eq!(long_entry(b"\xaa\x56"), b"");
    assert_eq!(long_entry(b"\xaa\x55"), b"\xaa\x55");
    assert_eq!(long_entry(b"\xaa\x55\0\0\0\0"), b"\xaa\x55\0\0\0");
    assert_eq!(
        long_entry(b"\xaa\x55\x22\0\x01m\x22"),
        b"\xaa\x55\x22\0\x01m"
    );
    assert_eq!(short_entry(b"\xaa\x55\x22\0\x01m"), b"\xaa\x55\0\0\0");
}
