//! The twelve examples of the scope paper, in one table.

use crate::common::{data, data_end, packet, upload, Desk};
use reference::draft::Draft;
use reference::equation::{evaluate, matches};
use reference::header::check;
use reference::packet::Type;
use reference::server::Answer;
use reference::store::{blocks_needed, next_time};

/// What an upload of the file is answered with.
fn verdict(file: &[u8]) -> String {
    let mut desk = Desk::opened();
    let stream = [upload(file.len() as u32), data(file), data_end()].concat();
    desk.hear(1, &stream)[1].clone()
}

#[test]
fn p1_to_p12() {
    let mut desk = Desk::new();
    let login = desk.open(1);
    let smallest = Draft::new().bytes();
    let examples = [
        packet(Type::Data, &[0; 256])[..2] == [0x00, 0x20],
        desk.receive(1, &[0x01, 0x20]) == Answer::Closed(2),
        matches!(login, Answer::Sent(0, packet)
            if packet.bytes() == [0x05, 0x02, 0, 0, 0, 0, 0x04]),
        packet(Type::SelectResp, &[3, 0])[..2] == [0x02, 0x11],
        packet(Type::UlErrorResp, &[13]) == [0x01, 0x05, 0x0d],
        [0, 256, 257].map(blocks_needed) == [0, 1, 2],
        next_time(1000, 900) == Some(1001) && next_time(1000, 2000) == Some(2000),
        smallest.len() == 80
            && check(&smallest, 80).is_ok()
            && verdict(&smallest) == "UL_ACK_RESP "
            && verdict(&smallest[..79]) == "UL_NAK_RESP 0e",
        evaluate(b"\x93\x22\0\x01m", &[]) == Err(8),
        matches(b"*land*", b"Landrover") && !matches(b"?", b""),
        evaluate(b"\x83\x22\0\x05*****", &[]) == Err(8),
        evaluate(b"", &[]) == Err(8),
    ];
    for (index, holds) in examples.iter().enumerate() {
        assert!(holds, "P{}", index + 1);
    }
}
