//! The packet layer: the papers' packets, every head, and bytes cut anywhere.

use reference::packet::{announced, number, read, write, Announced, Frame, Framed, Packet, Type};
use reference::random::Random;

/// Feeds all bytes and gathers each packet's end with the bytes taken up to it.
fn feed_all(frame: &mut Frame, bytes: &[u8], from: usize) -> Vec<(usize, Framed)> {
    let mut ends = Vec::new();
    let mut at = 0;
    while at < bytes.len() {
        let (took, end) = frame.feed(&bytes[at..]);
        assert!(took > 0);
        at += took;
        if end != Framed::Open {
            ends.push((from + at, end));
        }
    }
    ends
}

fn whole(kind: u8, information: &[u8]) -> Framed {
    Framed::Whole {
        kind,
        information: information.to_vec(),
    }
}

#[test]
fn names_and_numbers_of_the_types() {
    let names = [
        "DATA",
        "DATA_END",
        "LOGIN_RESP",
        "UPLOAD_CMD",
        "UL_GO_RESP",
        "UL_ERROR_RESP",
        "UL_ACK_RESP",
        "UL_NAK_RESP",
        "DOWNLOAD_CMD",
        "DL_ERROR_RESP",
        "DL_ABORTED_RESP",
        "DL_COMPLETED_RESP",
        "DL_ACK_CMD",
        "DL_NAK_CMD",
        "DIR_SHORT_CMD",
        "DIR_LONG_CMD",
        "SELECT_CMD",
        "SELECT_RESP",
    ];
    for value in 0..=255u8 {
        match Type::of(value) {
            Some(kind) => {
                assert_eq!(kind.number(), value);
                assert_eq!(kind.name(), names[usize::from(value)]);
            }
            None => assert!(value > 17),
        }
    }
}

#[test]
fn numbers_are_least_significant_byte_first() {
    assert_eq!(number(&[]), 0);
    assert_eq!(number(&[0x7f]), 0x7f);
    assert_eq!(number(&[0x34, 0x12]), 0x1234);
    assert_eq!(number(&[0x78, 0x56, 0x34, 0x12]), 0x1234_5678);
    assert_eq!(number(&[0xff; 4]), u32::MAX);
    let mut random = Random::new(1);
    for _ in 0..1000 {
        let value = random.word() as u32;
        assert_eq!(number(&value.to_le_bytes()), value);
    }
}

/// The packets that 001 describes and the examples of 000, tables 6.2A to
/// 6.2S, that agree with 01. Table 6.2I (a DOWNLOAD_CMD of 8 bytes) does not.
#[test]
fn packets_of_the_papers() {
    let packets: [(Type, &[u8], &[u8]); 20] = [
        (Type::Data, b"abc", b"\x03\x00abc"),
        (Type::DataEnd, b"", b"\x00\x01"),
        (
            Type::LoginResp,
            b"\x00\x00\x00\x00\x04",
            b"\x05\x02\x00\x00\x00\x00\x04",
        ),
        (
            Type::UploadCmd,
            b"\x00\x00\x00\x00\x50\x00\x00\x00",
            b"\x08\x03\x00\x00\x00\x00\x50\x00\x00\x00",
        ),
        (
            Type::UploadCmd,
            b"\x07\x00\x00\x00\x50\x00\x00\x00",
            b"\x08\x03\x07\x00\x00\x00\x50\x00\x00\x00",
        ),
        (
            Type::UlGoResp,
            b"\x01\x00\x00\x00\x00\x00\x00\x00",
            b"\x08\x04\x01\x00\x00\x00\x00\x00\x00\x00",
        ),
        (Type::UlErrorResp, b"\x0d", b"\x01\x05\x0d"),
        (Type::UlAckResp, b"", b"\x00\x06"),
        (Type::UlNakResp, b"\x0e", b"\x01\x07\x0e"),
        (
            Type::DownloadCmd,
            b"\x01\x00\x00\x00\x00\x01\x00\x00\x00",
            b"\x09\x08\x01\x00\x00\x00\x00\x01\x00\x00\x00",
        ),
        (Type::DlErrorResp, b"\x05", b"\x01\x09\x05"),
        (Type::DlAbortedResp, b"", b"\x00\x0a"),
        (Type::DlCompletedResp, b"", b"\x00\x0b"),
        (Type::DlAckCmd, b"\x00", b"\x01\x0c\x00"),
        (Type::DlNakCmd, b"", b"\x00\x0d"),
        (
            Type::DirShortCmd,
            b"\x00\x00\x00\x00",
            b"\x04\x0e\x00\x00\x00\x00",
        ),
        (
            Type::DirLongCmd,
            b"\xff\xff\xff\xff",
            b"\x04\x0f\xff\xff\xff\xff",
        ),
        (
            Type::SelectCmd,
            b"\xff\x01\x10\x16\x04\x00\x00\x00\x00",
            b"\x09\x10\xff\x01\x10\x16\x04\x00\x00\x00\x00",
        ),
        (
            Type::SelectCmd,
            b"\xff\x03\x03\x74\x04ARMY\x03\x74\x04NAVY\xe0\x10\x16\x04\0\0\0\0\x80",
            b"\x19\x10\xff\x03\x03\x74\x04ARMY\x03\x74\x04NAVY\xe0\x10\x16\x04\0\0\0\0\x80",
        ),
        (Type::SelectResp, b"\x03\x00", b"\x02\x11\x03\x00"),
    ];
    for (kind, information, bytes) in packets {
        let packet = Packet::new(kind, information);
        assert_eq!(packet.bytes(), bytes, "{}", kind.name());
        assert_eq!(read(bytes), Ok((packet, bytes.len())), "{}", kind.name());
    }
    // Tables 6.2R and 6.2S: the types 30 and 31 belong to another protocol.
    assert_eq!(read(b"\x04\x1e\x01\x00\x00\x00"), Err(33));
    assert_eq!(read(b"\x01\x1f\x00"), Err(33));
}

#[test]
fn examples_p1_to_p5() {
    assert_eq!(
        Packet::new(Type::Data, &[7; 256]).bytes()[..2],
        [0x00, 0x20]
    );
    assert_eq!(Frame::new().feed(&[0x01, 0x20]), (2, Framed::TooLong));
    let login = Packet::new(Type::LoginResp, &[0, 0, 0, 0, 4]);
    assert_eq!(login.bytes(), [0x05, 0x02, 0, 0, 0, 0, 0x04]);
    let select = Packet::new(Type::SelectResp, &[9, 0]);
    assert_eq!(select.bytes()[..2], [0x02, 0x11]);
    let error = Packet::new(Type::UlErrorResp, &[13]);
    assert_eq!(error.bytes(), [0x01, 0x05, 0x0d]);
}

/// The table is made from lengths and types, so it says nothing about bits.
fn table_of_heads() -> Vec<Option<Announced>> {
    let mut table = vec![None; 65_536];
    for length in 0..2048usize {
        for kind in 0..32u8 {
            let first = length % 256;
            let second = usize::from(kind) + 32 * (length / 256);
            let entry = &mut table[first * 256 + second];
            assert!(entry.is_none());
            *entry = Some(Announced { kind, length });
        }
    }
    table
}

#[test]
fn every_head_is_read_as_the_table_says() {
    for (index, entry) in table_of_heads().into_iter().enumerate() {
        let head = [(index / 256) as u8, (index % 256) as u8];
        let Announced { kind, length } = entry.expect("each head has one meaning");
        assert_eq!(announced(head[0], head[1]), Announced { kind, length });

        let mut bytes = head.to_vec();
        bytes.resize(2 + length, 0x55);
        let plain = read(&bytes);
        match Type::of(kind) {
            Some(kind) => {
                let packet = Packet::new(kind, &bytes[2..]);
                assert_eq!(plain, Ok((packet, 2 + length)));
                assert_eq!(read(&bytes[..1 + length]), Err(33));
            }
            None => assert_eq!(plain, Err(33)),
        }

        let framed = Frame::new().feed(&bytes);
        if length > 256 {
            assert_eq!(framed, (2, Framed::TooLong));
        } else {
            assert_eq!(framed, (2 + length, whole(kind, &bytes[2..])));
        }
    }
}

#[test]
fn what_is_written_reads_back() {
    let mut random = Random::new(2);
    for kind in 0..18u8 {
        for length in [0, 1, 255, 256, 2047] {
            for room in [0, 1, 300] {
                let information = random.bytes(length);
                let mut output = vec![0xee; 2 + length + room];
                assert_eq!(write(kind, &information, &mut output), Ok(2 + length));
                assert!(output[2 + length..].iter().all(|&byte| byte == 0xee));
                let (packet, took) = read(&output).unwrap();
                assert_eq!(packet.kind.number(), kind);
                assert_eq!(packet.information, information);
                assert_eq!(took, 2 + length);
            }
        }
    }
}

#[test]
fn the_writer_refuses_33_then_32_and_writes_nothing() {
    let mut output = [0xee; 2100];
    let long = [0u8; 2048];
    for kind in 0..=255u8 {
        let fitting = write(kind, &[], &mut output[..1]);
        assert_eq!(fitting, Err(if kind > 17 { 33 } else { 32 }));
        assert_eq!(write(kind, &long, &mut output), Err(33));
        assert_eq!(write(kind, &long, &mut output[..0]), Err(33));
    }
    assert_eq!(write(18, &[], &mut []), Err(33));
    assert_eq!(write(0, &[], &mut [0]), Err(32));
    for length in [0, 1, 255, 256, 2047] {
        let short = &mut output[..1 + length];
        assert_eq!(write(17, &long[..length], short), Err(32));
    }
    assert!(output.iter().all(|&byte| byte == 0xee));
}

#[test]
fn the_reader_refuses_what_is_not_whole() {
    assert_eq!(read(&[]), Err(33));
    assert_eq!(read(&[0x05]), Err(33));
    assert_eq!(read(&[0x05, 0x02, 0x00]), Err(33));
    let bytes = Packet::new(Type::Data, &[1; 700]).bytes();
    for cut in 0..bytes.len() {
        assert_eq!(read(&bytes[..cut]), Err(33));
    }
}

#[test]
fn a_link_takes_one_packet_at_a_time() {
    let upload = b"\x08\x03\0\0\0\0\x50\0\0\0";
    let mut stream = upload.to_vec();
    stream.extend(Packet::new(Type::Data, &[7; 80]).bytes());
    stream.extend(b"\x00\x01");
    let mut frame = Frame::new();
    assert_eq!(frame.feed(&stream), (10, whole(3, &upload[2..])));
    assert_eq!(frame.feed(&stream[10..]), (82, whole(0, &[7; 80])));
    assert_eq!(frame.feed(&stream[92..]), (2, whole(1, &[])));
    assert_eq!(frame.feed(&[]), (0, Framed::Open));
    assert_eq!(frame, Frame::new());
}

#[test]
fn the_announced_length_ends_a_link_before_the_type_does() {
    assert_eq!(Frame::new().feed(b"\x01\x3f\0\0"), (2, Framed::TooLong));
    assert_eq!(Frame::new().feed(b"\x00\x1f\0"), (2, whole(31, &[])));
    assert_eq!(
        Frame::new().feed(b"\x05\x1f\x01\x02\x03\x04\x05\x06"),
        (7, whole(31, &[1, 2, 3, 4, 5]))
    );
    let mut frame = Frame::new();
    assert_eq!(frame.feed(b"\x01"), (1, Framed::Open));
    assert_eq!(frame.held(), [1]);
    assert_eq!(frame.feed(b"\x20\x00"), (1, Framed::TooLong));
    assert_eq!(frame, Frame::new());
}

fn random_stream(random: &mut Random) -> Vec<u8> {
    let mut stream = Vec::new();
    for _ in 0..random.between(1, 12) {
        let length = match random.below(6) {
            0 => 0,
            1 => 256,
            2 => random.between(257, 2047),
            _ => random.below(40),
        };
        let kind = random.below(32);
        stream.push((length % 256) as u8);
        stream.push((kind + 32 * (length / 256)) as u8);
        // The information of a packet too long is not taken as such.
        let follows = if length > 256 { 0 } else { length };
        stream.extend(random.bytes(follows));
    }
    let cut = random.below(stream.len() + 1);
    stream.truncate(cut);
    stream
}

#[test]
fn cutting_the_bytes_elsewhere_changes_nothing() {
    let mut random = Random::new(3);
    for _ in 0..2000 {
        let stream = random_stream(&mut random);
        let mut at_once = Frame::new();
        let ends = feed_all(&mut at_once, &stream, 0);

        let mut by_bytes = Frame::new();
        let mut ends_by_bytes = Vec::new();
        for (at, byte) in stream.iter().enumerate() {
            ends_by_bytes.extend(feed_all(&mut by_bytes, &[*byte], at));
        }
        assert_eq!(ends_by_bytes, ends);
        assert_eq!(by_bytes, at_once);

        let mut in_pieces = Frame::new();
        let mut ends_in_pieces = Vec::new();
        let mut at = 0;
        while at < stream.len() {
            let piece = random.between(0, stream.len() - at);
            ends_in_pieces.extend(feed_all(&mut in_pieces, &stream[at..at + piece], at));
            at += piece;
        }
        assert_eq!(ends_in_pieces, ends);
        assert_eq!(in_pieces, at_once);
    }
}

#[test]
fn every_cut_in_two_of_one_stream() {
    let mut stream = Packet::new(Type::Data, &[9; 256]).bytes();
    stream.extend(Packet::new(Type::SelectCmd, b"\x90\x12\0\x04\0\0\0\0").bytes());
    stream.extend(Packet::new(Type::DataEnd, &[]).bytes());
    stream.extend(b"\x01\x3f");
    let ends = feed_all(&mut Frame::new(), &stream, 0);
    assert_eq!(ends.len(), 4);
    for cut in 0..=stream.len() {
        let mut frame = Frame::new();
        let mut cut_ends = feed_all(&mut frame, &stream[..cut], 0);
        cut_ends.extend(feed_all(&mut frame, &stream[cut..], cut));
        assert_eq!(cut_ends, ends);
    }
}
