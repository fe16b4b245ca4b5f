//! Directories call by call, the proved server beside the second program: what is sent and where the place in the selection stands, at small and
//! large sizes; DL_NAK_CMD between any two requests; headers of 80 to 65,535 bytes; what goes on beside a directory, and what ends it.
use reference::draft::Draft;
use reference::header;
use reference::packet::Type;
use reference::random::Random;
use reference::server::{Sizes, ENTRIES};
use server::call::{Act, Call};
use server::history::sizes;
use server::packets::{
    ack, data, data_end, directory, download, nak, packet, select, upload, whole_upload,
};
use server::pair::{Pair, Start};
use server::proved::Answer;

const DATA_END: [u8; 2] = [0, 1];
/// Upload time greater than 0: every complete file.
const ALL: [u8; 8] = [0x90, 0x12, 0, 4, 0, 0, 0, 0];

struct Class {
    pair: Pair,
}

impl Class {
    fn new(sizes: Sizes) -> Class {
        let mut class = Class {
            pair: Pair::new(Start::new(sizes)),
        };
        for session in 1..=sizes.sessions {
            class.call(session, Act::Open);
        }
        class
    }

    fn call(&mut self, session: usize, act: Act) -> Answer {
        let call = Call {
            session,
            clock: 500,
            room: 258,
            act,
        };
        let answer = self.pair.call(&call);
        answer.unwrap_or_else(|what| panic!("{call}: {what}"))
    }

    fn send(&mut self, session: usize, bytes: Vec<u8>) -> Answer {
        self.call(session, Act::Receive(bytes))
    }

    fn upload(&mut self, file: &[u8]) {
        for packet in whole_upload(file) {
            self.send(1, packet);
        }
    }

    /// An accepted command.
    fn begin(&mut self, session: usize, bytes: Vec<u8>) {
        let length = bytes.len();
        assert_eq!(self.send(session, bytes), Answer::Quiet(length));
    }

    /// DATA up to DATA_END: the lengths of the packets, and all bytes joined.
    fn listed(&mut self, session: usize) -> (Vec<usize>, Vec<u8>) {
        let (mut lengths, mut joined) = (Vec::new(), Vec::new());
        loop {
            match self.call(session, Act::Request) {
                Answer::Sent(0, packet) if packet == DATA_END => break,
                Answer::Sent(0, packet) if packet[1] % 32 == 0 => {
                    lengths.push(packet.len() - 2);
                    joined.extend(&packet[2..]);
                }
                answer => panic!("{answer:?}"),
            }
        }
        assert_eq!(self.call(session, Act::Request), Answer::Quiet(0));
        (lengths, joined)
    }

    /// The complete files, oldest first.
    fn complete(&self) -> Vec<Vec<u8>> {
        let store = &self.pair.second.store;
        let places = store.places.iter().enumerate();
        let mut files: Vec<(u32, usize)> = places
            .filter_map(|(place, file)| Some((file.as_ref()?.upload_time?, place)))
            .collect();
        files.sort_unstable();
        files
            .into_iter()
            .map(|(_, place)| store.contents(place))
            .collect()
    }

    /// The session's place in its selection, as the words say.
    fn next(&self, session: usize) -> u64 {
        self.pair.proved.state[6 + 12 * (session - 1) + 11]
    }
}

/// What document 001 and the request say of a file's entry, from the file's own lengths.
fn entry(file: &[u8], long: bool) -> Vec<u8> {
    let offset = usize::from(file[68]) + 256 * usize::from(file[69]);
    if long {
        return file[..offset].to_vec();
    }
    // the eleven items that stand first, upload_time wherever it is, and the end mark
    let upload_time = header::items(file)
        .into_iter()
        .find(|item| item.id == header::UPLOAD_TIME)
        .expect("a mandatory item");
    let at = upload_time.at - 3;
    [&file[..70], &file[at..at + 7], &[0; 3]].concat()
}

fn is_full(lengths: &[usize]) -> bool {
    let (last, others) = lengths.split_last().expect("a directory sends something");
    others.iter().all(|length| *length == 256) && (1..=256).contains(last)
}

/// A file with a title, other items on both sides of upload_time, and a body.
fn file(random: &mut Random) -> Vec<u8> {
    let mut draft = Draft::new();
    let upload_time = draft.items.pop().expect("upload_time is the last");
    for _ in 0..random.below(3) {
        let length = random.below(90);
        draft = draft.with_item(0x23, &random.bytes(length));
    }
    draft.items.push(upload_time);
    for _ in 0..random.below(3) {
        let length = random.below(40);
        draft = draft.with_item(0x22, &random.bytes(length));
    }
    let length = random.below(200);
    draft.with_body(&random.bytes(length)).bytes()
}

/// Files until the store is full, or so many.
fn fill(class: &mut Class, random: &mut Random, most: usize) {
    for _ in 0..most {
        let file = file(random);
        let store = &class.pair.second.store;
        let room = store.free_blocks() * 256;
        if room < file.len() || store.places.iter().all(Option::is_some) {
            return;
        }
        class.upload(&file);
    }
}

/// At random sizes: the selection listed ten at a time, in either form, is every selected file's header once, oldest first; the place in the selection
/// stands behind them as soon as the command is accepted.
#[test]
fn the_selection_ten_at_a_time() {
    let (mut tens, mut lists) = (0, 0);
    for seed in 0..120 {
        let mut random = Random::new(5_000_000 + seed);
        let sizes = sizes(&mut random);
        let mut class = Class::new(sizes);
        let most = *random.pick(&[1, 3, 12, 30]);
        fill(&mut class, &mut random, most);
        let files = class.complete();
        let session = random.between(1, sizes.sessions);
        class.send(session, select(&ALL));
        let selected = &files[..files.len().min(sizes.maxsel)];
        let long = random.chance(1, 2);
        for (some, before) in selected.chunks(ENTRIES).zip((0..).step_by(ENTRIES)) {
            assert_eq!(class.next(session), before);
            class.begin(session, directory(long, 0));
            assert_eq!(class.next(session), before + some.len() as u64);
            let (lengths, joined) = class.listed(session);
            let want: Vec<u8> = some.iter().flat_map(|file| entry(file, long)).collect();
            assert!(is_full(&lengths), "{lengths:?}");
            assert_eq!(joined, want);
            tens += usize::from(some.len() == ENTRIES);
            lists += 1;
        }
        let left = class.send(session, directory(long, 0));
        assert_eq!(left, Answer::Sent(6, vec![1, 9, 5]));
        assert_eq!(class.next(session), selected.len() as u64);
    }
    assert!(20 < tens && 120 < lists, "{tens} of {lists}");
}

/// Each file by its number, and a download of the next selected one between: a directory by number moves no place.
#[test]
fn one_file_by_its_number() {
    for seed in 0..40 {
        let mut random = Random::new(5_100_000 + seed);
        let sizes = sizes(&mut random);
        let mut class = Class::new(sizes);
        fill(&mut class, &mut random, 12);
        let files = class.complete();
        class.send(1, select(&ALL));
        for (file, at) in files.iter().zip(1..) {
            let number = u32::from_le_bytes([file[5], file[6], file[7], file[8]]);
            let next = class.next(1);
            for long in [false, true] {
                class.begin(1, directory(long, number));
                let (lengths, joined) = class.listed(1);
                assert!(is_full(&lengths), "{lengths:?}");
                assert_eq!(joined, entry(file, long));
            }
            assert_eq!(class.next(1), next);
            if at <= sizes.maxsel {
                class.begin(1, download(0, 0, 0));
                let downloaded = class.listed(1).1;
                assert_eq!(downloaded, *file);
                class.send(1, ack(0));
                assert_eq!(class.next(1), at as u64);
            }
        }
    }
}

/// Ten files whose long entries take many DATA.
fn ten(header: usize) -> Class {
    let mut class = Class::new(Sizes {
        blocks: 200,
        files: 14,
        sessions: 2,
        maxsel: 13,
    });
    for length in 0..13 {
        let title = vec![b'a' + length as u8; header + length];
        let file = Draft::new().with_item(0x22, &title).with_body(&[7; 300]);
        class.upload(&file.bytes());
    }
    class.send(1, select(&ALL));
    class
}

/// DL_NAK_CMD after each number of requests: DATA_END at once and nothing behind it, and the place stays where the command moved it.
#[test]
fn nak_between_any_two_requests() {
    for (number, long) in [(0, false), (0, true), (3, false), (3, true)] {
        let mut class = ten(120);
        class.begin(1, directory(long, number));
        let whole = class.listed(1).0.len();
        for requests in 0..=whole {
            let mut class = ten(120);
            class.begin(1, directory(long, number));
            for _ in 0..requests {
                assert!(
                    matches!(class.call(1, Act::Request), Answer::Sent(0, packet) if packet[1] % 32 == 0)
                );
            }
            assert_eq!(class.send(1, nak()), Answer::Sent(2, DATA_END.to_vec()));
            assert_eq!(class.call(1, Act::Request), Answer::Quiet(0));
            // with the downlink idle it is no more than heard
            assert_eq!(class.send(1, nak()), Answer::Quiet(2));
            assert_eq!(class.next(1), if number == 0 { 10 } else { 0 });
            class.begin(1, directory(true, 0));
            let rest: Vec<u8> = match number {
                0 => class.complete()[10..]
                    .iter()
                    .flat_map(|file| entry(file, true))
                    .collect(),
                _ => class.complete()[..10]
                    .iter()
                    .flat_map(|file| entry(file, true))
                    .collect(),
            };
            assert_eq!(class.listed(1).1, rest);
        }
    }
}

/// While a directory is sent and between its last DATA and its DATA_END, any command of the downlink closes the link; the upload of the same session
/// is kept as far as it came. After DATA_END there is no word of the client's: DL_ACK_CMD closes too.
#[test]
fn what_closes_a_directory() {
    let closing = [
        select(&ALL),
        download(0, 0, 0),
        directory(false, 0),
        directory(true, 1),
        packet(Type::DirShortCmd, &[]),
        ack(0),
        packet(Type::DlNakCmd, &[0]),
    ];
    for bytes in closing {
        for requests in 0..6 {
            let mut class = ten(20);
            class.begin(1, directory(false, 0));
            class.send(1, upload(0, 300));
            class.send(1, data(&[1; 100]));
            for _ in 0..requests {
                class.call(1, Act::Request);
            }
            // 800 bytes are four DATA; the fifth request brings DATA_END, and the downlink is idle
            if requests == 5 {
                assert_eq!(class.send(1, ack(0)), Answer::Closed(3));
                continue;
            }
            assert_eq!(class.send(1, bytes.clone()), Answer::Closed(bytes.len()));
            class.call(1, Act::Open);
            assert_eq!(class.call(1, Act::Request), Answer::Quiet(0));
            let offered = class.send(1, upload(14, 300));
            assert_eq!(
                offered,
                Answer::Sent(10, vec![8, 4, 14, 0, 0, 0, 100, 0, 0, 0])
            );
        }
    }
}

/// The files of a directory are those that it named, whatever is completed while it is sent: on its own session and on the other one.
#[test]
fn uploads_beside_a_directory() {
    for long in [false, true] {
        let mut class = ten(60);
        let files = class.complete();
        let sent = Draft::new().with_body(&[9; 40]).bytes();
        class.begin(1, directory(long, 0));
        let mut joined: Vec<u8> = Vec::new();
        let mut packets = whole_upload(&sent).into_iter();
        while let Answer::Sent(0, packet) = class.call(1, Act::Request) {
            joined.extend(&packet[2..]);
            if let Some(packet) = packets.next() {
                class.send(1, packet);
            }
            class.send(2, select(&ALL));
        }
        let want: Vec<u8> = files[..10]
            .iter()
            .flat_map(|file| entry(file, long))
            .collect();
        assert_eq!(joined, want);
        assert_eq!(class.complete().len(), 14);
        assert_eq!(class.next(1), 10);
    }
}

/// A link lost after any number of requests forgets the directory and the selection.
#[test]
fn a_link_lost_in_a_directory() {
    for requests in 0..5 {
        let mut class = ten(20);
        class.begin(1, directory(false, 0));
        for _ in 0..requests {
            class.call(1, Act::Request);
        }
        class.call(1, Act::Lose);
        class.call(1, Act::Open);
        assert_eq!(class.call(1, Act::Request), Answer::Quiet(0));
        assert_eq!(
            class.send(1, directory(false, 0)),
            Answer::Sent(6, vec![1, 9, 5])
        );
    }
}

/// Refusals in their order: 1, then 5 or 4, then 11. They change nothing, and the downlink stays idle.
#[test]
fn refusals() {
    let mut class = ten(20);
    class.send(2, upload(0, 90));
    let partial = class.pair.second.store.last_number;
    let error = |number| move |length: usize| Answer::Sent(length, vec![1, 9, number]);
    for kind in [Type::DirShortCmd, Type::DirLongCmd] {
        for length in (0..=256).filter(|length| *length != 4) {
            let wrong = packet(kind, &vec![0; length]);
            assert_eq!(class.send(2, wrong), error(1)(length + 2));
        }
        for (number, refusal) in [(0, 5), (99, 4), (u32::MAX, 4), (partial, 11)] {
            let command = packet(kind, &number.to_le_bytes());
            assert_eq!(class.send(2, command), error(refusal)(6));
        }
        assert_eq!(class.call(2, Act::Request), Answer::Quiet(0));
    }
    // on the other session the selection is as it was
    class.begin(1, directory(false, 0));
    assert_eq!(class.listed(1).1.len(), 800);
}

/// A file that is a header of so many bytes: its titles have 255 bytes, and the last one or two fewer.
fn header_of(length: usize) -> Vec<u8> {
    let mut draft = Draft::new();
    let mut left = length - 80;
    while 0 < left {
        let take = match left {
            3..=258 => left - 3,
            259..=260 => 200,
            _ => 255,
        };
        draft = draft.with_item(0x22, &vec![b'x'; take]);
        left -= take + 3;
    }
    draft.bytes()
}

/// Headers of 80 bytes, of a block and one byte beside it, and of the most that body_offset can say, over many blocks that do not lie together.
#[test]
fn headers_of_80_to_65535_bytes() {
    for length in [
        80, 83, 84, 255, 256, 257, 511, 512, 513, 4096, 20_000, 65_535,
    ] {
        let blocks = (length + 255) / 256;
        let mut class = Class::new(Sizes {
            blocks: 2 * blocks + 8,
            files: 4,
            sessions: 2,
            maxsel: 3,
        });
        // small files first, one of which is thrown away, so that the blocks of the long one do not lie together
        class.upload(&Draft::new().bytes());
        class.send(2, upload(0, 256));
        class.upload(&Draft::new().bytes());
        class.send(2, data(&[0; 256]));
        class.send(2, data_end());
        let file = header_of(length);
        assert_eq!(file.len(), length);
        class.upload(&file);
        let stored = class.complete()[2].clone();
        assert_eq!(stored.len(), length);
        class.begin(1, directory(true, 4));
        let (lengths, joined) = class.listed(1);
        assert!(is_full(&lengths));
        assert_eq!(lengths.len(), blocks);
        assert!(joined == stored);
        class.begin(1, directory(false, 4));
        assert_eq!(class.listed(1).1, entry(&stored, false));
        // behind the small ones, in one directory
        for long in [false, true] {
            class.send(2, select(&ALL));
            class.begin(2, directory(long, 0));
            let want: Vec<u8> = class
                .complete()
                .iter()
                .flat_map(|file| entry(file, long))
                .collect();
            let joined = class.listed(2).1;
            assert!(joined == want);
        }
    }
}

/// The short form is 80 stored bytes: its header_checksum and body_offset are those of the stored header, and not of the entry.
#[test]
fn a_short_entry_has_the_stored_sums() {
    let mut class = Class::new(Sizes::PROGRAM);
    let title = Draft::new().with_item(0x22, b"Hello").with_body(b"Hi");
    class.upload(&title.bytes());
    let stored = class.complete()[0].clone();
    class.begin(1, directory(false, 1));
    let short = class.listed(1).1;
    assert_eq!(short.len(), 80);
    assert_eq!(short[..70], stored[..70]);
    assert_eq!(
        header::first(&short, header::BODY_OFFSET),
        Some(&[88, 0][..])
    );
    assert_eq!(
        header::first(&short, header::HEADER_CHECKSUM),
        header::first(&stored, header::HEADER_CHECKSUM)
    );
    let items = header::items(&short);
    let ids: Vec<(u16, usize)> = items.iter().map(|item| (item.id, item.length)).collect();
    assert_eq!(ids, header::LISTED);
}
