//! SELECT: which files, in which order, and which selection stays.

use super::{f80, file_of, ACKNOWLEDGED, END, NOTHING};
use crate::common::{
    above, ack, data, data_end, download, hex, select, select_above, upload, Desk,
};
use reference::draft::Draft;
use reference::server::Sizes;

#[test]
fn a_refused_select_keeps_the_old_selection_and_its_place() {
    let mut desk = Desk::opened();
    desk.store(1, &f80());
    desk.store(1, &file_of(90));
    assert_eq!(desk.hear(1, &select_above(0)), ["SELECT_RESP 0200"]);
    let finish = [ack(0)].concat();
    desk.rx(1, &download(0, 80, 0));
    desk.hear(1, &finish);
    let before = desk.server.clone();
    for bad in [&b""[..], b"\0", b"\x93\x22\0\x01m", b"\x83\x22\0\x05*****"] {
        assert_eq!(desk.hear(1, &select(bad)), ["DL_ERROR_RESP 08"]);
        assert_eq!(desk.server, before);
    }
    let told = desk.rx(1, &download(0, 80, 0));
    assert_eq!(told.len(), 2);
    assert_eq!(told[1], END);
    desk.hear(1, &finish);
    assert_eq!(desk.hear(1, &download(0, 0, 0)), ["DL_ERROR_RESP 05"]);
}

#[test]
fn an_accepted_select_replaces_the_old_selection_even_by_an_empty_one() {
    let mut desk = Desk::opened();
    desk.store(1, &f80());
    desk.hear(1, &select_above(0));
    assert_eq!(desk.hear(1, &select_above(u32::MAX)), ["SELECT_RESP 0000"]);
    assert_eq!(desk.hear(1, &download(0, 0, 0)), ["DL_ERROR_RESP 05"]);
    // And begins anew.
    desk.hear(1, &select_above(0));
    desk.rx(1, &download(0, 0, 0));
    desk.hear(1, &ack(0));
    desk.hear(1, &select_above(0));
    assert_eq!(desk.hear(1, &download(0, 0, 0)), NOTHING);
}

#[test]
fn eight_is_given_on_an_empty_store_too() {
    let mut desk = Desk::opened();
    let stars = hex("83 2200 05 2a2a2a2a2a");
    assert_eq!(desk.hear(1, &select(&stars)), ["DL_ERROR_RESP 08"]);
    assert_eq!(desk.hear(1, &select_above(0)), ["SELECT_RESP 0000"]);
}

#[test]
fn the_stored_header_is_compared() {
    let mut desk = Desk::opened();
    let mut draft = Draft::new();
    draft.set(0x01, &hex("99999999"));
    draft.set(0x12, &hex("99999999"));
    draft.set(0x02, b"PUPIL   ");
    desk.clock = 500;
    desk.store(1, &draft.bytes());
    for (equation, count) in [
        ("80 0100 04 99999999", 0),
        ("80 0100 01 01", 1),
        ("80 1200 02 f401", 1),
        ("80 0600 02 f401", 1),
        ("80 0500 01 00", 1),
        // file_name, as sent and as stored: "000001f4", in either case.
        ("83 0200 08 505550494c202020", 0),
        ("b3 0200 08 505550494c202020", 1),
        ("83 0200 08 3030303030316634", 1),
        ("83 0200 08 3030303030314634", 1),
        ("b3 0200 08 3030303030316634", 0),
    ] {
        let told = desk.hear(1, &select(&hex(equation)));
        assert_eq!(told, [format!("SELECT_RESP 0{count}00")]);
    }
}

#[test]
fn a_letter_to_two_people_is_found_under_each() {
    let mut desk = Desk::opened();
    for stations in [&["A"][..], &["A", "B"], &["B", "A"], &["B"], &[]] {
        let mut draft = Draft::new();
        for station in stations {
            draft = draft.with_item(0x14, station.as_bytes());
        }
        desk.store(1, &draft.bytes());
    }
    for (equation, expected) in [
        ("83 1400 01 41", &[1, 2, 3][..]),
        ("83 1400 01 42", &[2, 3, 4]),
        ("b3 1400 01 41", &[2, 3, 4]),
        ("b3 1400 01 42", &[1, 2, 3]),
        ("83 1400 01 41 b3 1400 01 41 01", &[2, 3]),
        ("83 1400 01 41 83 1400 01 42 01", &[2, 3]),
        ("83 1400 01 41 b3 1400 01 41 02", &[1, 2, 3, 4]),
    ] {
        let told = desk.hear(1, &select(&hex(equation)));
        assert_eq!(told, [format!("SELECT_RESP 0{}00", expected.len())]);
        let session = desk.server.sessions[0].as_ref().unwrap();
        assert_eq!(session.selection.numbers, expected, "{equation}");
    }
}

#[test]
fn partials_and_later_files_are_not_selected() {
    let mut desk = Desk::opened();
    desk.open(2);
    desk.hear(2, &[upload(80), data(&f80())].concat());
    assert_eq!(desk.hear(1, &select_above(0)), ["SELECT_RESP 0000"]);
    desk.store(1, &f80());
    assert_eq!(desk.hear(1, &select_above(0)), ["SELECT_RESP 0100"]);
    assert_eq!(desk.hear(2, &data_end()), [ACKNOWLEDGED]);
    desk.rx(1, &download(0, 0, 0));
    desk.hear(1, &ack(0));
    assert_eq!(desk.hear(1, &download(0, 0, 0)), ["DL_ERROR_RESP 05"]);
}

#[test]
fn a_selection_is_the_oldest_by_upload_time() {
    let mut desk = Desk::sized(Sizes {
        blocks: 40,
        files: 9,
        sessions: 2,
        maxsel: 3,
    });
    desk.open(1);
    desk.open(2);
    // File 1 is begun first and completed last.
    desk.hear(2, &[upload(80), data(&f80())].concat());
    for _ in 2..=5 {
        desk.store(1, &f80());
    }
    desk.hear(2, &data_end());
    let selected = |desk: &Desk| {
        let session = desk.server.sessions[0].as_ref().unwrap();
        session.selection.numbers.clone()
    };
    assert_eq!(desk.hear(1, &select_above(0)), ["SELECT_RESP 0300"]);
    assert_eq!(selected(&desk), [2, 3, 4]);
    assert_eq!(desk.hear(1, &select_above(3)), ["SELECT_RESP 0200"]);
    assert_eq!(selected(&desk), [5, 1]);
    // A page of exactly MAXSEL at the end is followed by an empty one.
    assert_eq!(desk.hear(1, &select_above(2)), ["SELECT_RESP 0300"]);
    assert_eq!(selected(&desk), [4, 5, 1]);
    assert_eq!(desk.hear(1, &select_above(5)), ["SELECT_RESP 0000"]);
}

#[test]
fn selections_of_more_than_maxsel() {
    let sizes = Sizes {
        blocks: 120,
        files: 120,
        sessions: 1,
        maxsel: 50,
    };
    let mut desk = Desk::sized(sizes);
    desk.open(1);
    for _ in 0..120 {
        desk.store(1, &f80());
    }
    let mut pages = Vec::new();
    let mut time = 0;
    let mut given: Vec<u32> = Vec::new();
    loop {
        desk.hear(1, &select_above(time));
        let session = desk.server.sessions[0].as_ref().unwrap();
        let page = session.selection.numbers.clone();
        pages.push(page.len());
        given.extend(&page);
        if page.len() < 50 {
            break;
        }
        // At clock 0 the upload times are the numbers.
        time = *page.last().unwrap();
    }
    assert_eq!(pages, [50, 50, 20]);
    assert_eq!(given, (1..=120).collect::<Vec<u32>>());
}

#[test]
fn an_equation_of_256_bytes() {
    let mut desk = Desk::opened();
    desk.store(1, &f80());
    let mut equation = above(0);
    // Absent items are false; OR keeps the first truth.
    for _ in 0..49 {
        equation.extend(hex("83 2200 00 02"));
    }
    equation.extend(hex("00"));
    assert_eq!(equation.len(), 254);
    assert_eq!(desk.hear(1, &select(&equation)), ["SELECT_RESP 0100"]);
    equation.pop();
    equation.extend(hex("010203"));
    assert_eq!(equation.len(), 256);
    assert_eq!(desk.hear(1, &select(&equation)), ["DL_ERROR_RESP 08"]);
}
