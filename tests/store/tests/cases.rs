//! Cases chosen by hand: sizes, refusals, fields across blocks, the order of a selection, and states that are not sound.
use bindings::store::Store;
use reference::draft::Draft;
use reference::generator::relation;
use reference::random::Random;
use store::drafts::{after, put_ahead, upload_time_at};

/// The file of 80 bytes with only the mandatory items.
fn least_file() -> Vec<u8> {
    let file = Draft::new().bytes();
    assert_eq!(file.len(), 80);
    file
}

/// Begins and fills a file.
fn stored(s: &mut Store, last: &mut u32, file: &[u8]) -> usize {
    let place = s.begin(*last, file.len() as u32).expect("room");
    *last += 1;
    for part in file.chunks(256) {
        assert_eq!(s.append(place, part), 0);
    }
    place
}

/// Three files at the places 0 to 2: complete at time 10, complete at time 20, partial; two blocks each, in a store of 70 blocks and 5 files.
fn three_files() -> Store {
    let mut s = Store::empty(70, 5);
    let mut last = 0;
    let file = Draft::new().with_body(&[7; 300]).bytes();
    for time in [10, 20] {
        let place = stored(&mut s, &mut last, &file);
        assert_eq!(s.check(place), 0);
        assert_eq!(s.complete(place, time), 0);
    }
    let place = s.begin(last, 380).expect("room");
    assert_eq!(s.append(place, &file[..100]), 0);
    assert_eq!(s.sound(3, 20), 1);
    s
}

#[test]
fn sizes_outside_the_table_are_refused() {
    for (blocks, words, refused) in [
        (0, 0, true),
        (0, 1, true),
        (1, 0, true),
        (1, 1, false),
        (1, 2, true),
        (64, 1, false),
        (64, 2, true),
        (65, 1, true),
        (65, 2, false),
        (4096, 64, false),
        (4096, 63, true),
        (4097, 65, true),
    ] {
        let mut s = Store::lent(blocks, 1);
        s.map = vec![3; words];
        let before = s.clone();
        assert_eq!(s.make(), if refused { 33 } else { 0 });
        if refused {
            assert_eq!(s, before);
        } else {
            assert_eq!(s.free(), blocks);
            assert_eq!(s.disk, before.disk);
        }
    }
}

#[test]
fn blocks_of_a_length() {
    for (size, blocks) in [
        (0, 0),
        (1, 1),
        (255, 1),
        (256, 1),
        (257, 2),
        (512, 2),
        (513, 3),
    ] {
        let mut s = Store::empty(10, 2);
        assert_eq!(s.begin(0, size), Ok(0));
        assert_eq!(s.free(), 10 - blocks);
        assert_eq!(s.sound(1, 0), 1);
    }
}

#[test]
fn a_full_store_refuses_by_13() {
    for (blocks, files) in [(1, 1), (63, 2), (64, 256), (65, 3), (4096, 256)] {
        let mut s = Store::empty(blocks, files);
        assert_eq!(s.begin(0, 256 * blocks as u32 + 1), Err(13));
        assert_eq!(s.begin(0, u32::MAX), Err(13));
        assert_eq!(s, Store::empty(blocks, files));
        assert_eq!(s.begin(0, 256 * blocks as u32), Ok(0));
        assert_eq!(s.free(), 0);
        let full = s.clone();
        assert_eq!(s.begin(1, 1), Err(13));
        assert_eq!(s, full);
        // a file of length 0 needs a place and no block
        let zero = s.begin(1, 0);
        assert_eq!(zero, if files == 1 { Err(13) } else { Ok(1) });
        assert_eq!(s.discard(0), 0);
        assert_eq!(s.free(), blocks);
    }
}

#[test]
fn numbers_used_up_are_refused_by_3_before_13() {
    let mut s = Store::empty(1, 1);
    assert_eq!(s.begin(u32::MAX, 1000), Err(3));
    assert_eq!(s, Store::empty(1, 1));
    assert_eq!(s.begin(u32::MAX - 1, 1), Ok(0));
    assert_eq!(s.table[0], u32::MAX);
}

#[test]
fn places_past_the_256th_are_refused_by_33() {
    let mut s = Store::empty(1, 300);
    for last in 0..256 {
        assert_eq!(s.begin(last, 0), Ok(last as usize));
    }
    let before = s.clone();
    assert_eq!(s.begin(256, 0), Err(33));
    for place in [256, 299, 300, usize::MAX] {
        assert_eq!(s.append(place, &[]), 33);
        assert_eq!(s.discard(place), 33);
        assert_eq!(s.check(place), 33);
        assert_eq!(s.complete(place, 1), 33);
    }
    assert_eq!(s, before);
    assert_eq!(s.sound(256, 0), 0);
}

#[test]
fn slices_too_short_are_refused_by_33() {
    let mut s = three_files();
    s.disk.pop();
    let before = s.clone();
    assert_eq!(s.append(2, &[1]), 33);
    assert_eq!(s.check(0), 33);
    assert_eq!(s.complete(0, 30), 33);
    assert_eq!(s.read(0, 0, &mut [0; 4]), 33);
    s.map.clear();
    assert_eq!(s.begin(3, 1), Err(33));
    assert_eq!(s.discard(0), 33);
    s.map = before.map.clone();
    assert_eq!(s, before);
}

#[test]
fn the_checks_give_their_numbers() {
    let good = least_file();
    let with = |at: usize, b: u8| {
        let mut f = good.clone();
        f[at] = b;
        f
    };
    let body = Draft::new().with_body(&[1, 2, 3]).bytes();
    let mut other_body = body.clone();
    other_body[81] = 9;
    for (file, announced, number) in [
        (good.clone(), 80, 0),
        (good[..79].to_vec(), 80, 16),
        (good[..79].to_vec(), 79, 14),
        (vec![], 0, 7),
        (vec![0xaa], 1, 7),
        (vec![0xaa, 0x55], 2, 14),
        (vec![0xaa, 0x55, 0, 0, 0], 5, 6),
        (with(0, 0xab), 80, 7),
        (with(4, 5), 80, 14),
        (with(29, 81), 80, 14),
        (with(68, 81), 80, 14),
        (with(63, good[63].wrapping_add(1)), 80, 15),
        (with(70, 0x13), 80, 6),
        (other_body, 83, 16),
        (body, 83, 0),
    ] {
        let mut s = Store::empty(3, 2);
        assert_eq!(s.begin(0, announced), Ok(0));
        assert_eq!(s.append(0, &file), 0);
        let before = s.clone();
        assert_eq!(s.check(0), number, "{file:02x?} announced as {announced}");
        assert_eq!(s, before);
    }
}

#[test]
fn the_least_file_at_clock_0() {
    let mut s = Store::empty(1, 1);
    let mut last = 0;
    let place = stored(&mut s, &mut last, &least_file());
    assert_eq!(s.complete(place, 1), 0);
    let mut out = [0; 80];
    assert_eq!(s.read(0, 0, &mut out), 0);
    // number 1, last_modified_time 1 and upload_time 1: three more than before in the header sum; and the name, which was all zeros
    let mut want = least_file();
    let name = b"00000001";
    let digits: u16 = name.iter().map(|&digit| u16::from(digit)).sum();
    let sum = u16::from_le_bytes([want[63], want[64]]) + 3 + digits;
    (want[5], want[43], want[73]) = (1, 1, 1);
    want[12..20].copy_from_slice(name);
    want[63..65].copy_from_slice(&sum.to_le_bytes());
    assert_eq!(out[..], want[..]);
    assert_eq!(s.check(0), 0);
}

#[test]
fn upload_time_across_two_blocks_that_are_no_neighbours() {
    for pad in 170..=184 {
        let mut draft = Draft::new().with_body(&[5; 100]);
        put_ahead(&mut draft, 0x30, &vec![0x11; pad]);
        let file = draft.bytes();
        let at = upload_time_at(&file);
        assert_eq!(at, 76 + pad);
        let mut s = Store::empty(65, 3);
        let mut last = 0;
        let first = stored(&mut s, &mut last, &least_file());
        let between = stored(&mut s, &mut last, &least_file());
        assert_eq!(s.discard(first), 0);
        let place = stored(&mut s, &mut last, &file);
        assert_eq!(
            (s.owner[0], s.owner[1], s.owner[2]),
            (place as u16 + 1, between as u16 + 1, place as u16 + 1)
        );
        let neighbour = s.disk[256..512].to_vec();
        assert_eq!(s.check(place), 0);
        let time = 0x0403_0201;
        assert_eq!(s.complete(place, time), 0);
        assert_eq!(s.disk[256..512], neighbour);
        for (k, &b) in time.to_le_bytes().iter().enumerate() {
            let byte = at + k;
            assert_eq!(s.disk[if byte < 256 { byte } else { 256 + byte }], b);
        }
        assert_eq!(s.sound(last, time), 1);
        assert_eq!(s.check(place), 0);
        let mut selected = [9; 3];
        assert_eq!(
            s.select(&relation(0x80, 0x12, &time.to_le_bytes()), &mut selected, 3),
            Ok(1)
        );
        assert_eq!(selected, [last, 0, 0]);
        assert_eq!(s.select(&after(time), &mut selected, 2), Ok(0));
        assert_eq!(selected, [0, 0, 0]);
    }
}

#[test]
fn a_selection_is_the_oldest_first() {
    for (blocks, files) in [(1, 1), (64, 64), (4096, 256)] {
        let mut r = Random::new(blocks as u64);
        let mut s = Store::empty(blocks, files);
        let mut last = 0;
        let file = least_file();
        let places: Vec<usize> = (0..files)
            .map(|_| stored(&mut s, &mut last, &file))
            .collect();
        // completed in another order than begun
        let mut order = places;
        for i in (1..order.len()).rev() {
            order.swap(i, r.below(i + 1));
        }
        let mut time = 0;
        let mut numbers = Vec::new();
        for &place in &order {
            time += 1 + r.below(5) as u32;
            assert_eq!(s.complete(place, time), 0);
            numbers.push((time, s.table[4 * place]));
        }
        assert_eq!(s.sound(last, time), 1);
        for most in [1, 2, 49, 50] {
            for from in [0, time / 3, time / 2, time - 1, time] {
                let mut selected = vec![77; 55];
                let want: Vec<u32> = numbers
                    .iter()
                    .filter(|n| from < n.0)
                    .take(most)
                    .map(|n| n.1)
                    .collect();
                assert_eq!(s.select(&after(from), &mut selected, most), Ok(want.len()));
                assert_eq!(selected[..want.len()], want[..]);
                assert!(selected[want.len()..most].iter().all(|&n| n == 0));
                assert!(selected[most..].iter().all(|&n| n == 77));
            }
        }
    }
}

#[test]
fn selections_refused_change_nothing() {
    let s = three_files();
    let before = [0xabcd; 50];
    let mut selected = before;
    for most in [0, 51, usize::MAX] {
        assert_eq!(s.select(&after(0), &mut selected, most), Err(33));
    }
    assert_eq!(s.select(&after(0), &mut selected[..9], 10), Err(33));
    assert_eq!(s.select(&[0; 257], &mut selected, 50), Err(33));
    for eq in [
        &[][..],
        &[0],
        &[1],
        &[0x80],
        &[0x90, 0x12, 0, 4, 0, 0, 0],
        &[0x90, 0x12, 0, 3, 0, 0, 0],
        &[0xe0, 0x12, 0, 1, 0],
        &[0x93, 0x22, 0, 1, 0x6d],
    ] {
        assert_eq!(s.select(eq, &mut selected, 50), Err(8), "{eq:02x?}");
    }
    assert_eq!(
        s.select(&relation(0x83, 2, b"*****"), &mut selected, 50),
        Err(8)
    );
    assert_eq!(selected, before);
    assert_eq!(
        s.select(&relation(0x83, 2, b"****"), &mut selected, 1),
        Ok(1)
    );
}

/// What is changed, and the change.
type Change = (&'static str, fn(&mut Store));

/// Each fact of refusal 35 on the store is broken by one changed word.
#[test]
fn one_changed_word_is_not_sound() {
    let good = three_files();
    let changes: [Change; 16] = [
        ("a held block is marked free", |s| s.map[0] |= 1),
        ("a free block is marked held", |s| s.map[0] &= !(1 << 63)),
        ("a free block of the last word is marked held", |s| {
            s.map[1] &= !1
        }),
        ("a bit past the last block is set", |s| s.map[1] |= 1 << 6),
        ("the highest bit is set", |s| s.map[1] |= 1 << 63),
        ("a block's owner is past the last place", |s| s.owner[0] = 6),
        ("a block is another file's", |s| s.owner[0] = 2),
        ("a block is a place's that has no file", |s| s.owner[0] = 5),
        ("a held block has no owner", |s| s.owner[0] = 0),
        ("a number was never given", |s| s.table[0] = 4),
        ("a file has no number", |s| s.table[0] = 0),
        ("two files have one number", |s| s.table[0] = 2),
        ("a length has other blocks", |s| s.table[9] = 513),
        ("more bytes are received than announced", |s| {
            s.table[10] = 381
        }),
        ("a complete file lacks bytes", |s| s.table[2] -= 1),
        ("an upload time was never given", |s| s.table[3] = 21),
    ];
    for (what, change) in changes {
        let mut s = good.clone();
        change(&mut s);
        assert_ne!(s, good, "{what}");
        assert_eq!(s.sound(3, 20), 0, "{what}");
    }
    let mut s = good.clone();
    s.table[3] = 20;
    assert_eq!(s.sound(3, 20), 0, "two files have one upload time");
    let mut s = good.clone();
    s.table[11] = 5;
    assert_eq!(s.sound(3, 20), 0, "a file with an upload time lacks bytes");
    assert_eq!(
        good.sound(2, 20),
        0,
        "the last number is lower than a file's"
    );
    assert_eq!(good.sound(3, 19), 0, "the last time is lower than a file's");
    assert_eq!(good.sound(u32::MAX, u32::MAX), 1);
}

/// Slices that have not the lengths of one store are not sound.
#[test]
fn other_lengths_are_not_sound() {
    let good = three_files();
    let changes: [Change; 5] = [
        ("a word of the map more", |s| s.map.push(0)),
        ("a word of the map fewer", |s| {
            s.map.pop();
        }),
        ("a block fewer", |s| {
            s.owner.pop();
        }),
        ("part of a record", |s| s.table.push(0)),
        ("257 places", |s| s.table.resize(4 * 257, 0)),
    ];
    for (what, change) in changes {
        let mut s = good.clone();
        change(&mut s);
        assert_eq!(s.sound(3, 20), 0, "{what}");
    }
    let mut s = good.clone();
    s.table.resize(4 * 256, 0);
    assert_eq!(s.sound(3, 20), 1);
}
