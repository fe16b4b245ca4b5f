//! UPLOAD_CMD and DATA: new files, continued ones, blocks, numbers.

use super::{f80, file_of, go, ACKNOWLEDGED, NOTHING};
use crate::common::{data, data_end, hex, packet, proceed, upload, Desk};
use reference::draft::Draft;
use reference::packet::Type;
use reference::server::{Sizes, Uplink};
use reference::store::blocks_needed;

#[test]
fn an_upload_command_not_8_bytes_long() {
    for length in (0..=256).filter(|&length| length != 8) {
        let mut desk = Desk::opened();
        let before = desk.server.clone();
        let told = desk.rx(1, &packet(Type::UploadCmd, &vec![0; length]));
        assert_eq!(told, ["UL_ERROR_RESP 01"]);
        assert_eq!(desk.server, before);
    }
}

#[test]
fn blocks_by_length() {
    assert_eq!(blocks_needed(0), 0);
    assert_eq!(blocks_needed(1), 1);
    assert_eq!(blocks_needed(256), 1);
    assert_eq!(blocks_needed(257), 2);
    assert_eq!(blocks_needed(u32::MAX), 16_777_216);
    for (length, blocks) in [(0, 0), (1, 1), (256, 1), (257, 2), (32_768, 128)] {
        let mut desk = Desk::opened();
        assert_eq!(desk.hear(1, &upload(length)), [go(1, 0)]);
        assert_eq!(desk.free(), 128 - blocks);
    }
}

#[test]
fn more_than_there_is_room_for() {
    for length in [32_769, 40_000, 4_294_967_040, 4_294_967_041, u32::MAX] {
        let mut desk = Desk::opened();
        let before = desk.server.clone();
        assert_eq!(desk.hear(1, &upload(length)), ["UL_ERROR_RESP 0d"]);
        assert_eq!(desk.server, before);
        // A refused upload uses no number.
        assert_eq!(desk.hear(1, &upload(80)), [go(1, 0)]);
    }
}

#[test]
fn no_free_place() {
    let mut desk = Desk::sized(Sizes {
        blocks: 9,
        files: 2,
        sessions: 1,
        maxsel: 1,
    });
    desk.open(1);
    for number in 1..=2 {
        assert_eq!(desk.hear(1, &upload(0)), [go(number, 0)]);
        desk.lose(1);
        desk.open(1);
    }
    assert_eq!(desk.free(), 9);
    assert_eq!(desk.hear(1, &upload(0)), ["UL_ERROR_RESP 0d"]);
    assert_eq!(desk.hear(1, &proceed(1, 0)), [go(1, 0)]);
    assert_eq!(desk.hear(1, &data_end()), ["UL_NAK_RESP 07"]);
    // The place is free again; its number is not.
    assert_eq!(desk.hear(1, &upload(0)), [go(3, 0)]);
}

#[test]
fn a_number_given_stays_used_after_a_nak() {
    let mut desk = Desk::opened();
    desk.hear(1, &[upload(80), data_end()].concat());
    assert_eq!(desk.hear(1, &upload(80)), [go(2, 0)]);
}

#[test]
fn file_numbers_used_up() {
    let mut desk = Desk::opened();
    desk.server.store.last_number = u32::MAX - 1;
    assert_eq!(desk.hear(1, &upload(80)), [go(u32::MAX, 0)]);
    desk.hear(1, &data_end());
    let before = desk.server.clone();
    assert_eq!(desk.hear(1, &upload(80)), ["UL_ERROR_RESP 03"]);
    // 3 comes before 13, and 1 before 3.
    assert_eq!(desk.hear(1, &upload(u32::MAX)), ["UL_ERROR_RESP 03"]);
    assert_eq!(desk.hear(1, &hex("0003")), ["UL_ERROR_RESP 01"]);
    assert_eq!(desk.server, before);
}

#[test]
fn files_of_0_1_2_and_5_bytes() {
    let nak_of = |length: u32, bytes: &[u8]| {
        let mut desk = Desk::opened();
        let stream = [upload(length), data(bytes), data_end()].concat();
        let told = desk.hear(1, &stream);
        assert_eq!(desk.free(), 128);
        told[1].clone()
    };
    assert_eq!(nak_of(0, &[]), "UL_NAK_RESP 07");
    assert_eq!(nak_of(1, &hex("aa")), "UL_NAK_RESP 07");
    assert_eq!(nak_of(2, &hex("aa55")), "UL_NAK_RESP 0e");
    assert_eq!(nak_of(5, &hex("aa55000000")), "UL_NAK_RESP 06");
    let mut desk = Desk::opened();
    desk.hear(1, &upload(0));
    assert_eq!(desk.hear(1, &hex("0000")), NOTHING);
    assert_eq!(desk.hear(1, &hex("010000")), ["UL_NAK_RESP 10"]);
    assert_eq!(desk.uplink(1), Uplink::Ignoring);
}

#[test]
fn data_that_would_pass_the_announced_length() {
    let mut desk = Desk::opened();
    desk.hear(1, &upload(80));
    desk.hear(1, &data(&f80()[..70]));
    let disk = desk.server.store.disk.clone();
    assert_eq!(desk.hear(1, &data(&[9; 11])), ["UL_NAK_RESP 10"]);
    // None of it is stored and the blocks are free at once.
    assert_eq!(desk.server.store.disk, disk);
    assert_eq!(desk.free(), 128);
    let before = desk.server.clone();
    assert_eq!(desk.hear(1, &data(&[9; 10])), NOTHING);
    assert_eq!(desk.hear(1, &hex("0000")), NOTHING);
    assert_eq!(desk.server, before);
    desk.lose(1);
    desk.open(1);
    assert_eq!(desk.hear(1, &proceed(1, 80)), ["UL_ERROR_RESP 04"]);
}

#[test]
fn a_nak_discards_and_a_lost_link_keeps() {
    let mut bad = Draft::new();
    bad.header_sum_error = 1;
    let mut desk = Desk::opened();
    desk.hear(1, &[upload(80), data(&bad.bytes())].concat());
    let mut kept = desk.clone();
    assert_eq!(desk.hear(1, &data_end()), ["UL_NAK_RESP 0f"]);
    assert_eq!(desk.free(), 128);
    assert_eq!(desk.hear(1, &proceed(1, 80)), ["UL_ERROR_RESP 04"]);
    kept.lose(1);
    assert_eq!(kept.free(), 127);
    kept.open(1);
    assert_eq!(kept.hear(1, &proceed(1, 80)), [go(1, 80)]);
}

#[test]
fn a_partial_of_no_bytes_is_kept() {
    let mut desk = Desk::opened();
    desk.hear(1, &upload(80));
    desk.lose(1);
    assert_eq!(desk.free(), 127);
    desk.open(1);
    assert_eq!(desk.hear(1, &proceed(1, 80)), [go(1, 0)]);
}

#[test]
fn a_link_lost_after_each_byte_keeps_the_whole_packets() {
    let file = file_of(700);
    let pieces: [usize; 7] = [1, 256, 0, 100, 87, 256, 0];
    let mut stream = upload(700);
    let mut ends = vec![(stream.len(), 0)];
    let mut at = 0;
    for piece in pieces {
        stream.extend(packet(Type::Data, &file[at..at + piece]));
        at += piece;
        ends.push((stream.len(), at));
    }
    assert_eq!(at, 700);
    for lost in 10..=stream.len() {
        let mut desk = Desk::opened();
        desk.hear(1, &stream[..lost]);
        desk.lose(1);
        let &(_, whole) = ends.iter().rev().find(|(end, _)| *end <= lost).unwrap();
        assert_eq!(desk.contents(1).unwrap(), file[..whole]);
        desk.open(2);
        assert_eq!(desk.hear(2, &proceed(1, 700)), [go(1, whole as u32)]);
        let rest = [data(&file[whole..]), data_end()].concat();
        assert_eq!(desk.hear(2, &rest), [ACKNOWLEDGED]);
        let stored = desk.contents(1).unwrap();
        assert_eq!(stored[80..], file[80..]);
    }
}

#[test]
fn continuing_refused_in_order() {
    let mut desk = Desk::opened();
    desk.store(1, &f80());
    desk.hear(1, &upload(300));
    desk.open(2);
    let before = desk.server.clone();
    assert_eq!(desk.hear(2, &proceed(9, 1)), ["UL_ERROR_RESP 04"]);
    assert_eq!(desk.hear(2, &proceed(u32::MAX, 1)), ["UL_ERROR_RESP 04"]);
    assert_eq!(desk.hear(2, &proceed(1, 80)), ["UL_ERROR_RESP 0c"]);
    assert_eq!(desk.hear(2, &proceed(1, 81)), ["UL_ERROR_RESP 0c"]);
    assert_eq!(desk.hear(2, &proceed(2, 300)), ["UL_ERROR_RESP 02"]);
    assert_eq!(desk.hear(2, &proceed(2, 301)), ["UL_ERROR_RESP 02"]);
    assert_eq!(desk.server, before);
    desk.lose(1);
    assert_eq!(desk.hear(2, &proceed(2, 299)), ["UL_ERROR_RESP 02"]);
    assert_eq!(desk.hear(2, &proceed(2, 0)), ["UL_ERROR_RESP 02"]);
    assert_eq!(desk.hear(2, &proceed(2, 300)), [go(2, 0)]);
    desk.open(1);
    assert_eq!(desk.hear(1, &proceed(2, 300)), ["UL_ERROR_RESP 02"]);
    // One's own upload is never met so: the command is unexpected.
    assert_eq!(desk.hear(2, &proceed(2, 300)), ["closed"]);
    assert_eq!(desk.hear(1, &proceed(2, 300)), [go(2, 0)]);
}

#[test]
fn a_file_being_ignored_is_gone() {
    let mut desk = Desk::opened();
    desk.hear(1, &upload(80));
    desk.hear(1, &data(&[0; 81]));
    desk.open(2);
    assert_eq!(desk.hear(2, &proceed(1, 80)), ["UL_ERROR_RESP 04"]);
}

#[test]
fn continuing_needs_no_room() {
    let mut desk = Desk::opened();
    desk.hear(1, &upload(32_768));
    desk.lose(1);
    desk.open(1);
    assert_eq!(desk.free(), 0);
    assert_eq!(desk.hear(1, &upload(1)), ["UL_ERROR_RESP 0d"]);
    assert_eq!(desk.hear(1, &upload(0)), [go(2, 0)]);
    desk.hear(1, &data_end());
    assert_eq!(desk.hear(1, &proceed(1, 32_768)), [go(1, 0)]);
}

#[test]
fn the_lowest_free_blocks_and_the_lowest_free_place() {
    let mut desk = Desk::sized(Sizes {
        blocks: 10,
        files: 4,
        sessions: 4,
        maxsel: 5,
    });
    for session in 1..=4 {
        desk.open(session);
    }
    desk.hear(1, &upload(512));
    desk.hear(2, &upload(700));
    desk.hear(3, &upload(256));
    let blocks = |desk: &Desk, place: usize| desk.server.store.file(place).blocks.clone();
    assert_eq!(blocks(&desk, 0), [0, 1]);
    assert_eq!(blocks(&desk, 1), [2, 3, 4]);
    assert_eq!(blocks(&desk, 2), [5]);
    desk.hear(2, &data_end());
    // The middle file's blocks and place are taken first, then those behind.
    desk.hear(4, &upload(1100));
    assert_eq!(blocks(&desk, 1), [2, 3, 4, 6, 7]);
    assert_eq!(desk.server.store.file(1).number, 4);
    desk.hear(1, &data_end());
    desk.hear(1, &upload(600));
    assert_eq!(blocks(&desk, 0), [0, 1, 8]);
    assert_eq!(desk.server.store.file(0).number, 5);
}

#[test]
fn blocks_are_not_cleared() {
    let mut desk = Desk::opened();
    desk.hear(1, &[upload(300), data(&[7; 256])].concat());
    desk.hear(1, &data_end());
    desk.hear(1, &upload(512));
    assert_eq!(desk.server.store.disk[..256], [7; 256]);
    desk.hear(1, &data(&[8; 10]));
    assert_eq!(
        desk.server.store.disk[..12],
        [8, 8, 8, 8, 8, 8, 8, 8, 8, 8, 7, 7]
    );
}

#[test]
fn data_of_any_pieces_makes_the_same_file() {
    let file = file_of(600);
    for piece in [1, 2, 79, 80, 81, 255, 256] {
        let mut desk = Desk::opened();
        let mut stream = upload(600);
        for part in file.chunks(piece) {
            stream.extend(packet(Type::Data, part));
        }
        stream.extend(data_end());
        assert_eq!(desk.hear(1, &stream), [go(1, 0), ACKNOWLEDGED.to_string()]);
        assert_eq!(desk.contents(1).unwrap()[80..], file[80..]);
    }
}
