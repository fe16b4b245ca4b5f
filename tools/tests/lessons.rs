//! The bytes that a lesson's words make.
use tools::bytes::{number, sum};
use tools::draft::{Draft, Value};
use tools::header::{self, End};
use tools::names::*;

#[test]
fn the_smallest_file_is_that_of_the_protocol_page() {
    let draft = Draft {
        given: vec![
            (FILE_NAME, Value::Text(b"smallest".to_vec())),
            (0x05, Value::Number(1000, None)),
        ],
        ..Draft::default()
    };
    let script = include_str!("../../examples/smallest-file.txt");
    let hex = tools::bytes::to_hex(&draft.bytes());
    assert!(script.contains(&format!("5000{hex}")));
}

#[test]
fn lengths_and_sums_are_worked_out() {
    for length in [0, 1, 255, 1000] {
        let body: Vec<u8> = (0..length).map(|place| (place * 7) as u8).collect();
        let draft = Draft {
            others: vec![(TITLE, Value::Text(vec![b'x'; length.min(255)]))],
            body,
            ..Draft::default()
        };
        let file = draft.bytes();
        let (items, end) = header::read(&file);
        let told = |id: u16| {
            items
                .iter()
                .find(|item| item.id == id)
                .map(|item| number(item.data) as usize)
        };
        let head = draft.header_length();
        assert_eq!(
            (end, told(BODY_OFFSET), told(FILE_SIZE)),
            (End::Whole(head), Some(head), Some(file.len()))
        );
        assert_eq!(told(BODY_CHECKSUM), Some(sum(&file[head..]).into()));
        assert_eq!(tools::blame::blame(&file, file.len() as u32), None);
    }
}
