//! The header: each check, the order of any two, and the fields set at the end.

use reference::draft::Draft;
use reference::header::{
    check, destinations, each, file_name, first, items, set_server_fields, sum, Fault,
};
use reference::random::Random;

/// The number that DATA_END gives to a whole file, 0 for none.
fn verdict(file: &[u8]) -> u8 {
    verdict_of(file, file.len() as u32)
}

fn verdict_of(received: &[u8], announced: u32) -> u8 {
    match check(received, announced) {
        Ok(_) => 0,
        Err(fault) => fault.number(),
    }
}

fn fault(draft: &Draft) -> Option<Fault> {
    let file = draft.bytes();
    check(&file, file.len() as u32).err()
}

const F80: [u8; 80] = [
    0xaa, 0x55, 0x01, 0, 4, 0, 0, 0, 0, 0x02, 0, 8, 0, 0, 0, 0, 0, 0, 0, 0, 0x03, 0, 3, 0, 0, 0,
    0x04, 0, 4, 0x50, 0, 0, 0, 0x05, 0, 4, 0, 0, 0, 0, 0x06, 0, 4, 0, 0, 0, 0, 0x07, 0, 1, 0, 0x08,
    0, 1, 0, 0x09, 0, 2, 0, 0, 0x0a, 0, 2, 0x1a, 0x02, 0x0b, 0, 2, 0x50, 0, 0x12, 0, 4, 0, 0, 0, 0,
    0, 0, 0,
];

#[test]
fn example_p8() {
    assert_eq!(Draft::new().bytes(), F80);
    assert_eq!(verdict(&F80), 0);
    assert_eq!(verdict(&F80[..79]), 14);
}

#[test]
fn the_items_stand_where_fixed_lengths_put_them() {
    let header = check(&F80, 80).unwrap();
    assert_eq!(header.length, 80);
    let places: Vec<(u16, usize)> = header.items.iter().map(|item| (item.id, item.at)).collect();
    let expected = [
        (0x01, 5),
        (0x02, 12),
        (0x03, 23),
        (0x04, 29),
        (0x05, 36),
        (0x06, 43),
        (0x07, 50),
        (0x08, 54),
        (0x09, 58),
        (0x0a, 63),
        (0x0b, 68),
        (0x12, 73),
    ];
    assert_eq!(places, expected);
    assert_eq!(items(&F80), header.items);
}

#[test]
fn short_files() {
    assert_eq!(verdict(&[]), 7);
    assert_eq!(verdict(&[0xaa]), 7);
    assert_eq!(verdict(&[0xaa, 0x55]), 14);
    assert_eq!(verdict(&[0x55, 0xaa]), 7);
    assert_eq!(verdict(&[0xaa, 0x55, 0, 0]), 14);
    assert_eq!(verdict(&[0xaa, 0x55, 0, 0, 0]), 6);
}

#[test]
fn fewer_bytes_than_announced() {
    assert_eq!(verdict_of(&[], 1), 16);
    assert_eq!(verdict_of(&F80[..79], 80), 16);
    assert_eq!(verdict_of(&F80, u32::MAX), 16);
    assert_eq!(check(&F80, 81), Err(Fault::TooFewBytes));
}

#[test]
fn every_beginning_of_a_file_announced_as_such() {
    for length in 0..80 {
        let expected = if length < 2 { 7 } else { 14 };
        assert_eq!(verdict(&F80[..length]), expected, "length {length}");
    }
}

/// What a change of one byte of the smallest file leads to.
fn after_change(at: usize, value: u8) -> u8 {
    // Where each item's id stands.
    let heads = [2, 9, 20, 26, 33, 40, 47, 51, 55, 60, 65, 70];
    if at < 2 {
        return 7;
    }
    // The end mark becomes an item: of a wrong length, or one that runs out.
    if at >= 77 {
        return 14;
    }
    let head = *heads.iter().rev().find(|&&head| head <= at).unwrap();
    match at - head {
        // An id that is no longer known is another: that is out of order unless
        // it is body_offset or upload_time, which then is missing.
        0 if head == 65 && (value > 0x0b && value != 0x12) => 6,
        0 if head == 70 && value > 0x0b => 6,
        1 if head >= 65 => 6,
        0 | 1 => 14,
        2 => 14,
        // The data of file_size and body_offset.
        _ if head == 26 || head == 65 => 14,
        _ => 15,
    }
}

#[test]
fn every_change_of_one_byte_of_the_smallest_file() {
    for at in 0..80 {
        for value in 0..=255u8 {
            let mut file = F80;
            file[at] = value;
            let expected = if value == F80[at] {
                0
            } else {
                after_change(at, value)
            };
            assert_eq!(verdict(&file), expected, "byte {at} becomes {value}");
        }
    }
}

#[test]
fn one_mandatory_item_missing() {
    let whole = Draft::new();
    for (id, _) in whole.items.clone() {
        let draft = Draft::new().without(id).with_body(b"body");
        assert_eq!(fault(&draft), Some(Fault::Missing), "id {id}");
    }
    // Both missing and the end mark cut off: the walk comes first.
    let mut file = Draft::new().without(0x03).bytes();
    file.truncate(file.len() - 3);
    assert_eq!(verdict(&file), 14);
    // Without body_offset, upload_time right behind 0a is in order.
    assert_eq!(verdict(&Draft::new().without(0x0b).bytes()), 6);
}

#[test]
fn a_listed_id_with_a_wrong_length() {
    for (id, data) in Draft::new().items {
        for length in 0..=255 {
            if length == data.len() {
                continue;
            }
            let mut draft = Draft::new();
            draft.set(id, &vec![0; length]);
            assert_eq!(fault(&draft), Some(Fault::WrongLength), "id {id}");
        }
    }
}

#[test]
fn a_listed_id_twice() {
    for (place, (id, data)) in Draft::new().items.into_iter().enumerate() {
        for at in place + 1..=12 {
            let mut draft = Draft::new();
            draft.items.insert(at, (id, data.clone()));
            assert_eq!(verdict(&draft.bytes()), 14, "id {id} again at {at}");
        }
    }
    let again = Draft::new().with_item(0x12, &[0; 4]);
    assert_eq!(fault(&again), Some(Fault::ListedTwice));
}

#[test]
fn every_exchange_of_two_items() {
    for one in 0..12 {
        for other in one + 1..12 {
            let mut draft = Draft::new();
            draft.items.swap(one, other);
            assert_eq!(fault(&draft), Some(Fault::NotRisingAhead));
        }
    }
}

#[test]
fn other_items_only_behind_the_first_eleven() {
    for id in [0x0cu16, 0x12, 0x13, 0x14, 0x22, 0x0101, 0x0112, 0xffff] {
        for at in 0..=12 {
            let mut draft = Draft::new();
            draft.items.insert(at, (id, vec![1, 2, 3, 4]));
            let expected = match (id, at) {
                (0x12, _) | (_, 0..=10) => 14,
                _ => 0,
            };
            assert_eq!(verdict(&draft.bytes()), expected, "id {id} at {at}");
        }
    }
    let mut draft = Draft::new().without(0x03);
    draft.items.insert(10, (0x03, vec![0; 3]));
    assert_eq!(verdict(&draft.bytes()), 14);
}

#[test]
fn id_zero_only_ends() {
    for length in 1..=255 {
        let draft = Draft::new().with_item(0, &vec![0; length]);
        assert_eq!(fault(&draft), Some(Fault::ZeroIdWithLength));
    }
    // An item of id 0 and no data is the end mark; what follows is body.
    let draft = Draft::new().with_item(0, &[]);
    let file = draft.bytes();
    let mut ended = Draft::new().with_body(&[0, 0, 0]);
    ended.end = vec![0; 3];
    assert_eq!(verdict(&ended.bytes()), 0);
    assert_eq!(file.len(), 83);
    assert_eq!(verdict(&file), 14);
}

#[test]
fn ids_have_sixteen_bits() {
    for id in [0x0101u16, 0x0112, 0x0114, 0x1200, 0x0b00, 0xff00] {
        let draft = Draft::new().with_item(id, b"any").with_item(id, b"");
        let file = draft.bytes();
        assert_eq!(verdict(&file), 0);
        assert_eq!(destinations(&file), 0);
        assert_eq!(first(&file, id), Some(&b"any"[..]));
        assert_eq!(first(&file, id & 0xff), first(&F80, id & 0xff));
    }
    let draft = Draft::new().without(0x12).with_item(0x0112, &[0; 4]);
    assert_eq!(verdict(&draft.bytes()), 6);
}

#[test]
fn destinations_of_any_length_and_number() {
    assert_eq!(destinations(&F80), 0);
    let mut draft = Draft::new();
    for length in 0..=255 {
        draft = draft.with_item(0x14, &vec![b'x'; length]);
    }
    for _ in 0..60 {
        draft = draft.with_item(0x14, b"G0K8KA");
    }
    let file = draft.bytes();
    assert_eq!(verdict(&file), 0);
    assert_eq!(destinations(&file), 316);
    assert_eq!(first(&file, 0x14), Some(&b""[..]));
    // A destination in the body, or before the end in a header of no items.
    let body = Draft::new().with_body(&[0x14, 0, 1, 9]).bytes();
    assert_eq!(destinations(&body), 0);
    assert_eq!(destinations(b"\xaa\x55\x14\x00\x01\x09\x14\x00\x05"), 1);
    assert_eq!(destinations(b"\xab\x55\x14\x00\x01\x09"), 0);
}

#[test]
fn the_first_item_with_an_id() {
    let file = Draft::new()
        .with_item(0x22, b"first")
        .with_item(0x23, b"other")
        .with_item(0x22, b"second")
        .bytes();
    assert_eq!(first(&file, 0x22), Some(&b"first"[..]));
    assert_eq!(first(&file, 0x23), Some(&b"other"[..]));
    assert_eq!(first(&file, 0x24), None);
    assert_eq!(first(&file, 0), None);
    assert_eq!(first(b"", 0x22), None);
    assert_eq!(first(b"\xaa\x55\x22\x00\x05ab", 0x22), None);
    assert_eq!(first(b"\xaa\x55\x22\x00\x02ab\x23", 0x22), Some(&b"ab"[..]));
}

#[test]
fn every_item_with_an_id() {
    let file = Draft::new()
        .with_item(0x22, b"first")
        .with_item(0x23, b"other")
        .with_item(0x22, b"")
        .with_item(0x0122, b"high byte")
        .with_item(0x22, b"third")
        .with_body(b"\x22\x00\x04body")
        .bytes();
    assert_eq!(each(&file, 0x22), [&b"first"[..], b"", b"third"]);
    assert_eq!(each(&file, 0x23), [b"other"]);
    assert_eq!(each(&file, 0x24), [b""; 0]);
    assert_eq!(each(&file, 0), [b""; 0]);
    assert_eq!(each(b"", 0x22), [b""; 0]);
    // The second runs out, so it is none.
    let cut = b"\xaa\x55\x22\x00\x02ab\x22\x00\x03cd";
    assert_eq!(each(cut, 0x22), [b"ab"]);
}

#[test]
fn offset_size_and_sums() {
    let draft = Draft::new().with_item(0x22, b"title").with_body(b"body");
    assert_eq!(fault(&draft), None);
    for bit in 0..16 {
        let mut wrong = draft.clone();
        wrong.offset_error = 1 << bit;
        assert_eq!(fault(&wrong), Some(Fault::WrongBodyOffset));
        let mut wrong = draft.clone();
        wrong.header_sum_error = 1 << bit;
        assert_eq!(fault(&wrong), Some(Fault::WrongHeaderSum));
        let mut wrong = draft.clone();
        wrong.body_sum_error = 1 << bit;
        assert_eq!(fault(&wrong), Some(Fault::WrongBodySum));
    }
    for bit in 0..32 {
        let mut wrong = draft.clone();
        wrong.size_error = 1 << bit;
        assert_eq!(fault(&wrong), Some(Fault::WrongFileSize));
    }
}

#[test]
fn sums_wrap_at_65_536() {
    assert_eq!(sum(&[]), 0);
    assert_eq!(sum(&[255; 257]), 65_535);
    assert_eq!(sum(&[255; 258]), 254);
    assert_eq!(sum(&vec![255; 1_048_576]), (267_386_880u32 % 65_536) as u16);
    let draft = Draft::new().with_body(&vec![255; 70_000]);
    assert_eq!(fault(&draft), None);
    let mut long = Draft::new();
    for _ in 0..60 {
        long = long.with_item(0x7fff, &[255; 255]);
    }
    assert_eq!(fault(&long), None);
}

/// A header of exactly that length, 80 or at least 83.
fn header_of(length: usize) -> Draft {
    let mut draft = Draft::new();
    let mut more = length - 80;
    while more > 0 {
        let piece = match more {
            // What is left must again have room for an item's head.
            259..=260 => 128,
            _ => more.min(258),
        };
        draft = draft.with_item(0x30, &vec![1; piece - 3]);
        more -= piece;
    }
    assert_eq!(draft.bytes().len(), length);
    draft
}

#[test]
fn a_header_longer_than_its_offset_can_say() {
    assert_eq!(fault(&header_of(65_535)), None);
    assert_eq!(fault(&header_of(65_535).with_body(b"and a body")), None);
    // Modulo 65,536 these offsets would be right.
    assert_eq!(fault(&header_of(65_536)), Some(Fault::WrongBodyOffset));
    let beyond = header_of(65_536 + 80);
    let file = beyond.bytes();
    assert_eq!(first(&file, 0x0b), Some(&[80, 0][..]));
    assert_eq!(fault(&beyond), Some(Fault::WrongBodyOffset));
    // What is missing comes before the offset.
    assert_eq!(fault(&beyond.without(0x02)), Some(Fault::Missing));
}

/// "The upload time in lower-case hexadecimal, eight digits": the bytes of each
/// name, written by hand.
#[test]
fn names_as_in_orbit() {
    let names: [(u32, [u8; 8]); 10] = [
        (0, [0x30, 0x30, 0x30, 0x30, 0x30, 0x30, 0x30, 0x30]),
        (1, [0x30, 0x30, 0x30, 0x30, 0x30, 0x30, 0x30, 0x31]),
        (9, [0x30, 0x30, 0x30, 0x30, 0x30, 0x30, 0x30, 0x39]),
        (10, [0x30, 0x30, 0x30, 0x30, 0x30, 0x30, 0x30, 0x61]),
        (15, [0x30, 0x30, 0x30, 0x30, 0x30, 0x30, 0x30, 0x66]),
        (16, [0x30, 0x30, 0x30, 0x30, 0x30, 0x30, 0x31, 0x30]),
        (1000, [0x30, 0x30, 0x30, 0x30, 0x30, 0x33, 0x65, 0x38]),
        (
            0x1234_5678,
            [0x31, 0x32, 0x33, 0x34, 0x35, 0x36, 0x37, 0x38],
        ),
        (
            0x9abc_def0,
            [0x39, 0x61, 0x62, 0x63, 0x64, 0x65, 0x66, 0x30],
        ),
        (u32::MAX, [0x66, 0x66, 0x66, 0x66, 0x66, 0x66, 0x66, 0x66]),
    ];
    for (time, name) in names {
        assert_eq!(file_name(time), name);
    }
    // Each digit by each value: the highest four bits come first.
    for place in 0..8 {
        for (value, digit) in b"0123456789abcdef".iter().enumerate() {
            let mut name = *b"00000000";
            name[place] = *digit;
            let time = (value as u32) << (28 - 4 * place);
            assert_eq!(file_name(time), name);
        }
    }
}

#[test]
fn the_five_fields_of_the_smallest_file() {
    let mut file = F80.to_vec();
    let header = check(&file, 80).unwrap();
    set_server_fields(&mut file, &header, 1, 1);
    let mut expected = F80.to_vec();
    expected[5] = 1;
    expected[12..20].copy_from_slice(b"00000001");
    expected[43] = 1;
    // 021a, three ones, and the name's 7 times 30 and once 31.
    expected[63..65].copy_from_slice(&[0x9e, 0x03]);
    expected[73] = 1;
    assert_eq!(file, expected);
    assert_eq!(verdict(&file), 0);
}

/// The smallest file as stored under number 01020304 at time a1b2c3d4, written
/// by hand. Its sum is 021a of the sent one, 0a of the number, twice 02ea of
/// the time and 0254 of the name.
const STORED: [u8; 80] = [
    0xaa, 0x55, 0x01, 0, 4, 0x04, 0x03, 0x02, 0x01, 0x02, 0, 8, 0x61, 0x31, 0x62, 0x32, 0x63, 0x33,
    0x64, 0x34, 0x03, 0, 3, 0, 0, 0, 0x04, 0, 4, 0x50, 0, 0, 0, 0x05, 0, 4, 0, 0, 0, 0, 0x06, 0, 4,
    0xd4, 0xc3, 0xb2, 0xa1, 0x07, 0, 1, 0, 0x08, 0, 1, 0, 0x09, 0, 2, 0, 0, 0x0a, 0, 2, 0x4c, 0x0a,
    0x0b, 0, 2, 0x50, 0, 0x12, 0, 4, 0xd4, 0xc3, 0xb2, 0xa1, 0, 0, 0,
];

#[test]
fn what_was_sent_in_the_five_fields_does_not_matter() {
    assert_eq!(verdict(&STORED), 0);
    let (zeros, other) = ([0; 8], [0xff; 8]);
    for name in [&zeros, b"PUPIL   ", b"A1B2C3D4", b"a1b2c3d4", &other] {
        for number in [0u32, 0x0102_0304, u32::MAX] {
            let mut draft = Draft::new();
            draft.set(0x02, name);
            for id in [0x01, 0x06, 0x12] {
                draft.set(id, &number.to_le_bytes());
            }
            let mut file = draft.bytes();
            let header = check(&file, 80).unwrap();
            set_server_fields(&mut file, &header, 0x0102_0304, 0xa1b2_c3d4);
            assert_eq!(file, STORED);
            // Once more changes nothing.
            set_server_fields(&mut file, &header, 0x0102_0304, 0xa1b2_c3d4);
            assert_eq!(file, STORED);
        }
    }
}

/// The name by the digits' own arithmetic, from the lowest up.
fn name_plainly(time: u32) -> Vec<u8> {
    let mut rest = time;
    let mut name = Vec::new();
    for _ in 0..8 {
        let digit = (rest % 16) as u8;
        name.insert(0, if digit < 10 { 48 + digit } else { 87 + digit });
        rest /= 16;
    }
    name
}

#[test]
fn only_the_five_fields_change() {
    let mut random = Random::new(4);
    for _ in 0..300 {
        let mut draft = Draft::new().without(0x12);
        for (id, length) in [(0x01, 4), (0x02, 8), (0x05, 4), (0x06, 4), (0x08, 1)] {
            draft.set(id, &random.bytes(length));
        }
        for _ in 0..random.below(4) {
            let length = random.below(256);
            draft = draft.with_item(0x20 + random.below(8) as u16, &random.bytes(length));
        }
        let place = random.between(11, draft.items.len());
        draft.items.insert(place, (0x12, random.bytes(4)));
        let length = random.below(600);
        let draft = draft.with_body(&random.bytes(length));
        let sent = draft.bytes();
        let header = check(&sent, sent.len() as u32).unwrap();

        let (number, time) = (random.word() as u32, random.word() as u32);
        let mut stored = sent.clone();
        set_server_fields(&mut stored, &header, number, time);
        assert_eq!(verdict(&stored), 0);
        assert_eq!(first(&stored, 0x01), Some(&number.to_le_bytes()[..]));
        assert_eq!(first(&stored, 0x06), Some(&time.to_le_bytes()[..]));
        assert_eq!(first(&stored, 0x12), Some(&time.to_le_bytes()[..]));
        assert_eq!(first(&stored, 0x02), Some(&name_plainly(time)[..]));
        let set = [0x01, 0x02, 0x06, 0x0a, 0x12];
        for (at, (new, old)) in stored.iter().zip(&sent).enumerate() {
            let own = header.items.iter().any(|item| {
                set.contains(&item.id) && (item.at..item.at + item.length).contains(&at)
            });
            assert!(own || new == old, "byte {at}");
        }
    }
}

/// A damage of a file, applied where it leaves every later check passable.
type Damage = fn(&mut Draft);

/// The damages in the order of the checks; those of one step share its rank.
const DAMAGES: [(Damage, usize, u8); 13] = [
    (|draft| draft.mark = [0xaa, 0x54], 1, 7),
    (|draft| draft.mark = [0x55, 0xaa], 1, 7),
    (|draft| draft.end = vec![0x77, 0, 255], 2, 14),
    (|draft| draft.end = vec![0x12, 0, 255], 2, 14),
    (|draft| draft.items.push((0, vec![0; 9])), 2, 14),
    (|draft| draft.set(0x03, b"four"), 2, 14),
    (|draft| draft.items.push((0x08, vec![0])), 2, 14),
    (
        |draft| {
            let place = draft.place(0x07).unwrap();
            let item = draft.items.remove(place);
            draft.items.push(item);
        },
        2,
        14,
    ),
    (|draft| *draft = draft.clone().without(0x05), 3, 6),
    (|draft| draft.offset_error = 1, 4, 14),
    (|draft| draft.size_error = 0xffff_ffff, 4, 14),
    (|draft| draft.header_sum_error = 256, 5, 15),
    (|draft| draft.body_sum_error = 1, 6, 16),
];

fn damaged(damages: &[usize]) -> Vec<u8> {
    let mut draft = Draft::new()
        .with_item(0x14, b"G0K8KA")
        .with_body(b"the body of the file");
    for &damage in damages {
        DAMAGES[damage].0(&mut draft);
    }
    draft.bytes()
}

#[test]
fn of_any_two_faults_the_first_in_order_counts() {
    for (one, (_, rank, number)) in DAMAGES.iter().enumerate() {
        let file = damaged(&[one]);
        assert_eq!(verdict(&file), *number, "damage {one}");
        // Too few bytes comes before all.
        assert_eq!(verdict_of(&file, file.len() as u32 + 1), 16);
        for (other, (_, other_rank, other_number)) in DAMAGES.iter().enumerate() {
            let first = if rank <= other_rank {
                number
            } else {
                other_number
            };
            let file = damaged(&[one, other]);
            assert_eq!(verdict(&file), *first, "damages {one}, {other}");
        }
    }
}

#[test]
fn of_any_three_faults_the_first_in_order_counts() {
    for one in 0..DAMAGES.len() {
        for other in 0..DAMAGES.len() {
            for third in 0..DAMAGES.len() {
                let chosen = [one, other, third];
                let file = damaged(&chosen);
                let &first = chosen.iter().min_by_key(|&&at| DAMAGES[at].1).unwrap();
                assert_eq!(verdict(&file), DAMAGES[first].2, "damages {chosen:?}");
            }
        }
    }
}

#[test]
fn any_bytes_get_a_verdict() {
    let mut random = Random::new(5);
    for _ in 0..20_000 {
        let mut file = Draft::new().with_item(0x14, b"A").with_body(b"x").bytes();
        for _ in 0..random.between(1, 4) {
            let at = random.below(file.len());
            match random.below(3) {
                0 => file[at] = random.byte(),
                1 => file.truncate(at.max(1)),
                _ => file.insert(at, random.below(24) as u8),
            }
        }
        let number = verdict(&file);
        assert!([0, 6, 7, 14, 15, 16].contains(&number));
        if number == 0 {
            let header = check(&file, file.len() as u32).unwrap();
            assert_eq!(header.items, items(&file));
        }
    }
}

#[test]
fn every_fault_has_its_number() {
    let numbers: Vec<u8> = Fault::ALL.iter().map(|fault| fault.number()).collect();
    assert_eq!(numbers, [16, 7, 14, 14, 14, 14, 14, 6, 14, 14, 15, 16]);
}
