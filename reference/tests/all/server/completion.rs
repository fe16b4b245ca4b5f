//! DATA_END: the checks, the fields that the server sets, upload times.

use super::f80;
use crate::common::{data, data_end, hex, select_above, upload, Desk};
use reference::draft::Draft;
use reference::server::{Answer, Sizes, Uplink};
use reference::store::next_time;

#[test]
fn the_smallest_file_at_clock_0() {
    let mut desk = Desk::opened();
    desk.store(1, &f80());
    let stored = desk.contents(1).unwrap();
    assert_eq!(stored[5..9], hex("01000000"));
    assert_eq!(stored[12..20], hex("3030303030303031"));
    assert_eq!(stored[43..47], hex("01000000"));
    assert_eq!(stored[63..65], hex("9e03"));
    assert_eq!(stored[73..77], hex("01000000"));
    assert_eq!(desk.server.store.file(0).upload_time, Some(1));
    assert_eq!(desk.hear(1, &select_above(0)), ["SELECT_RESP 0100"]);
}

/// "At completion set file_name to the upload time", which need not be the
/// clock: two files of one second have two names.
#[test]
fn the_name_is_the_upload_time() {
    let mut desk = Desk::opened();
    let mut draft = Draft::new();
    draft.set(0x02, b"PUPIL   ");
    for (clock, name) in [
        (0x000f_fffe, b"000ffffe"),
        (0x000f_fffe, b"000fffff"),
        (5, b"00100000"),
        (0xfedc_ba98, b"fedcba98"),
        (0, b"fedcba99"),
        (0, b"fedcba9a"),
        (u32::MAX, b"ffffffff"),
    ] {
        desk.clock = clock;
        let number = desk.store(1, &draft.bytes());
        assert_eq!(desk.contents(number).unwrap()[12..20], name[..]);
    }
}

#[test]
fn a_partial_keeps_the_name_that_was_sent() {
    let mut desk = Desk::opened();
    let mut draft = Draft::new();
    draft.set(0x02, b"PUPIL   ");
    desk.hear(1, &[upload(80), data(&draft.bytes())].concat());
    assert_eq!(desk.contents(1), Some(draft.bytes()));
    desk.hear(1, &data_end());
    assert_eq!(desk.contents(1).unwrap()[12..20], b"00000001"[..]);
}

#[test]
fn every_fault_of_a_file_discards_it() {
    let base = Draft::new().with_item(0x14, b"A").with_body(b"body");
    let mut drafts: Vec<(Draft, u8)> = Vec::new();
    drafts.push((base.clone().without(0x12), 6));
    let mut draft = base.clone();
    draft.mark = [0, 0];
    drafts.push((draft, 7));
    let mut draft = base.clone();
    draft.end = hex("990001");
    draft.body.clear();
    drafts.push((draft, 14));
    drafts.push((base.clone().with_item(0, b"x"), 14));
    drafts.push((base.clone().with_item(0x0b, &[0, 0]), 14));
    let mut draft = base.clone();
    draft.offset_error = 1;
    drafts.push((draft, 14));
    let mut draft = base.clone();
    draft.size_error = 1;
    drafts.push((draft, 14));
    let mut draft = base.clone();
    draft.header_sum_error = 1;
    drafts.push((draft, 15));
    let mut draft = base.clone();
    draft.body_sum_error = 1;
    drafts.push((draft, 16));
    for (draft, number) in drafts {
        let file = draft.bytes();
        let mut desk = Desk::opened();
        desk.hear(1, &[upload(file.len() as u32), data(&file)].concat());
        let told = desk.hear(1, &data_end());
        assert_eq!(told, [format!("UL_NAK_RESP {number:02x}")]);
        assert_eq!(desk.free(), 128);
        assert_eq!(desk.uplink(1), Uplink::Idle);
        assert_eq!(desk.contents(1), None);
        assert_eq!(desk.server.store.last_time, 0);
        // Announced longer by one: too few bytes.
        let longer = file.len() as u32 + 1;
        let stream = [upload(longer), data(&file), data_end()].concat();
        assert_eq!(desk.hear(1, &stream)[1], "UL_NAK_RESP 10");
    }
}

#[test]
fn a_field_across_two_blocks_that_are_no_neighbours() {
    // An unknown item of 178 bytes puts the data of upload_time at 254.
    let mut draft = Draft::new().with_body(&[3; 400]);
    draft.items.insert(11, (0x30, vec![0x41; 178]));
    let file = draft.bytes();
    let mut desk = Desk::opened();
    for session in 2..=4 {
        desk.open(session);
    }
    desk.hear(2, &upload(256));
    desk.hear(3, &upload(256));
    desk.hear(4, &upload(256));
    desk.hear(2, &data_end());
    desk.hear(4, &data_end());
    desk.clock = 0xa1b2_c3d4;
    desk.store(1, &file);
    let place = desk.server.store.find(4).unwrap();
    assert_eq!(desk.server.store.file(place).blocks, [0, 2, 3]);
    let stored = desk.contents(4).unwrap();
    assert_eq!(stored[254..258], hex("d4c3b2a1"));
    assert_eq!(stored[12..20], b"a1b2c3d4"[..]);
    assert_eq!(stored[258..], file[258..]);
    assert_eq!(stored[65..254], file[65..254]);
}

#[test]
fn upload_times() {
    assert_eq!(next_time(1000, 900), Some(1001));
    assert_eq!(next_time(1000, 2000), Some(2000));
    assert_eq!(next_time(1000, 1000), Some(1001));
    assert_eq!(next_time(1000, 1001), Some(1001));
    assert_eq!(next_time(0, 0), Some(1));
    assert_eq!(next_time(0, u32::MAX), Some(u32::MAX));
    assert_eq!(next_time(u32::MAX - 1, 0), Some(u32::MAX));
    assert_eq!(next_time(u32::MAX, 0), None);
    assert_eq!(next_time(u32::MAX, u32::MAX), None);
}

#[test]
fn upload_times_rise_though_the_clock_falls() {
    let mut desk = Desk::opened();
    let mut times = Vec::new();
    for clock in [1000, 1000, 900, 0, 5000, 4999, 5001] {
        desk.clock = clock;
        let number = desk.store(1, &f80());
        let place = desk.server.store.find(number).unwrap();
        times.push(desk.server.store.file(place).upload_time.unwrap());
    }
    assert_eq!(times, [1000, 1001, 1002, 1003, 5000, 5001, 5002]);
}

#[test]
fn upload_times_used_up() {
    let mut desk = Desk::opened();
    desk.clock = u32::MAX;
    desk.store(1, &f80());
    for clock in [0, 5, u32::MAX] {
        desk.clock = clock;
        let stream = [upload(80), data(&f80()), data_end()].concat();
        assert_eq!(desk.hear(1, &stream)[1], "UL_NAK_RESP 03");
        assert_eq!(desk.free(), 127);
    }
    // Every fault of the file comes first.
    let mut bad = Draft::new().with_body(b"x");
    bad.body_sum_error = 1;
    let stream = [upload(81), data(&bad.bytes()), data_end()].concat();
    assert_eq!(desk.hear(1, &stream)[1], "UL_NAK_RESP 10");
    bad.header_sum_error = 1;
    let stream = [upload(81), data(&bad.bytes()), data_end()].concat();
    assert_eq!(desk.hear(1, &stream)[1], "UL_NAK_RESP 0f");
}

#[test]
fn the_clock_of_the_last_byte_counts() {
    let mut desk = Desk::opened();
    desk.hear(1, &[upload(80), data(&f80())].concat());
    desk.clock = 77;
    assert_eq!(desk.receive(1, &[0]), Answer::Quiet(1));
    desk.clock = 88;
    assert!(matches!(desk.receive(1, &[1]), Answer::Sent(1, _)));
    assert_eq!(desk.server.store.file(0).upload_time, Some(88));
}

#[test]
fn a_long_header_in_a_large_store() {
    let sizes = Sizes {
        blocks: 300,
        files: 4,
        sessions: 1,
        maxsel: 5,
    };
    let long = |length: usize| {
        let mut draft = Draft::new();
        let mut more = length - 80;
        while more > 0 {
            let piece = if more == 259 || more == 260 {
                128
            } else {
                more.min(258)
            };
            draft = draft.with_item(0x30, &vec![1; piece - 3]);
            more -= piece;
        }
        draft.bytes()
    };
    let mut desk = Desk::sized(sizes);
    desk.open(1);
    desk.store(1, &long(65_535));
    let mut desk = Desk::sized(sizes);
    desk.open(1);
    let beyond = long(65_536 + 80);
    let stream = [upload(beyond.len() as u32), data(&beyond), data_end()].concat();
    assert_eq!(desk.hear(1, &stream)[1], "UL_NAK_RESP 0e");
}
