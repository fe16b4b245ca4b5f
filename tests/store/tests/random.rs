//! Random operations, call by call beside the model, at all sizes.
use bindings::store::Store;
use reference::draft::Draft;
use reference::generator::relation;
use reference::header::{FILE_NAME, FILE_TYPE};
use reference::random::Random;
use std::collections::BTreeMap;
use store::drafts::{after, put_ahead};
use store::model::Model;

/// The store and the model side by side. Each call is made on both, answers are compared, and then every lent slice.
struct Pair {
    store: Store,
    model: Model,
    /// how often each call gave each number, 0 for done
    given: BTreeMap<(&'static str, u8), usize>,
}

impl Pair {
    fn new(blocks: usize, files: usize) -> Pair {
        let pair = Pair {
            store: Store::empty(blocks, files),
            model: Model::new(blocks, files),
            given: BTreeMap::new(),
        };
        pair.same();
        pair
    }

    fn count(&mut self, call: &'static str, number: u8) {
        *self.given.entry((call, number)).or_default() += 1;
    }

    /// Map, owners, table and free count are the model's, and the store is sound.
    fn same(&self) {
        let (s, m) = (&self.store, &self.model);
        assert_eq!(s.map, m.map());
        assert_eq!(s.owner, m.owner());
        assert_eq!(s.table, m.table());
        assert_eq!(s.free(), m.free_count());
        assert_eq!(s.sound(m.last, m.latest), 1);
    }

    /// The file's bytes are the model's, and no byte outside its blocks is another one than before.
    fn same_bytes(&self, before: &Store, place: usize) {
        let file = self.model.files[place].as_ref().expect("a file");
        let mut out = vec![0; file.bytes.len()];
        assert_eq!(self.store.read(place as u16, 0, &mut out), 0);
        assert_eq!(out, file.bytes);
        for (b, (now, then)) in self
            .store
            .disk
            .chunks(256)
            .zip(before.disk.chunks(256))
            .enumerate()
        {
            if file.blocks.binary_search(&b).is_err() {
                assert_eq!(now, then);
            }
        }
    }

    fn begin(&mut self, size: u32) -> Option<usize> {
        let before = self.store.clone();
        let got = self.store.begin(self.model.last, size);
        assert_eq!(got, self.model.begin(size));
        if got.is_err() {
            assert_eq!(self.store, before);
        }
        assert_eq!(self.store.disk, before.disk);
        self.same();
        self.count("begin", got.err().unwrap_or(0));
        got.ok()
    }

    fn append(&mut self, place: usize, more: &[u8]) {
        let before = self.store.clone();
        let got = self.store.append(place, more);
        assert_eq!(got, self.model.append(place, more));
        self.count("append", got);
        if got == 0 {
            self.same_bytes(&before, place);
        } else {
            assert_eq!(self.store, before);
        }
        self.same();
    }

    fn discard(&mut self, place: usize) {
        let before = self.store.clone();
        let got = self.store.discard(place);
        assert_eq!(got, self.model.discard(place));
        self.count("discard", got);
        if got != 0 {
            assert_eq!(self.store, before);
        }
        assert_eq!(self.store.disk, before.disk);
        self.same();
    }

    fn check(&mut self, place: usize) -> u8 {
        let got = self.store.check(place);
        assert_eq!(got, self.model.check(place));
        self.count("check", got);
        got
    }

    /// Completes a file as the server does, once it is checked; or has it refused.
    fn complete(&mut self, place: usize, time: u32) {
        if self.check(place) != 0 && self.model.completes(place) == 0 {
            return;
        }
        let before = self.store.clone();
        let got = self.store.complete(place, time);
        assert_eq!(got, self.model.complete(place, time));
        self.count("complete", got);
        if got == 0 {
            self.same_bytes(&before, place);
        } else {
            assert_eq!(self.store, before);
        }
        self.same();
    }

    fn select(&mut self, eq: &[u8], room: usize, most: usize) {
        let before: Vec<u32> = (0..room as u32).map(|i| 0xabcd_0000 + i).collect();
        let (mut got, mut want) = (before.clone(), before.clone());
        let answer = self.store.select(eq, &mut got, most);
        assert_eq!(answer, self.model.select(eq, &mut want, most));
        assert_eq!(got, want);
        match answer {
            Ok(0) => self.count("select none", 0),
            Ok(n) if n == most => self.count("select most", 0),
            Ok(_) => self.count("select some", 0),
            Err(refused) => self.count("select", refused),
        }
    }

    fn read(&mut self, place: usize, at: usize, n: usize) {
        let before = vec![0x3c; n];
        let mut out = before.clone();
        let got = self.store.read(place as u16, at, &mut out);
        let none = Vec::new();
        let file = self.model.files.get(place).and_then(Option::as_ref);
        let (blocks, bytes) = file.map_or((0, &none), |f| (f.blocks.len(), &f.bytes));
        let want = if 256 <= place {
            33
        } else if 256 * blocks < at.saturating_add(n) {
            35
        } else {
            0
        };
        assert_eq!(got, want);
        if got != 0 {
            assert_eq!(out, before);
        } else if at < bytes.len() {
            let k = n.min(bytes.len() - at);
            assert_eq!(out[..k], bytes[at..at + k]);
        }
        self.count("read", got);
    }
}

/// A valid file, or in about a third of all cases one that some check refuses.
fn some_file(r: &mut Random, most: usize) -> Vec<u8> {
    let mut d = Draft::new();
    d.set(FILE_TYPE, &[r.below(4) as u8]);
    d.set(FILE_NAME, &[0; 8].map(|_: u8| *r.pick(b"abAB*?")));
    let room = most.saturating_sub(80);
    for _ in 0..r.below(3) {
        let n = r.below(40);
        let id = [0x14, 0x22, 0x0122, 0x30][r.below(4)];
        let data: Vec<u8> = (0..n).map(|_| b"landLAND"[r.below(8)]).collect();
        if r.chance(1, 2) {
            put_ahead(&mut d, id, &data);
        } else {
            d.items.push((id, data));
        }
    }
    if r.chance(1, 16) {
        // a listed item a second time, or behind its place
        let (id, n) = [(0x12, 4), (5, 4), (11, 2)][r.below(3)];
        d.items.push((id, vec![0; n]));
    }
    let n = if r.chance(1, 4) {
        r.below(room + 1)
    } else {
        r.below(room.min(900) + 1)
    };
    d.body = r.bytes(n);
    let mut file = d.bytes();
    match r.below(12) {
        0 => {
            let at = r.below(file.len());
            file[at] ^= 1 << r.below(8);
        }
        1 => {
            let at = r.below(80);
            file[at] = file[at].wrapping_add(1);
        }
        2 => file.truncate(r.below(file.len())),
        3 => {
            // one item left out: the ones from 01 to 0b stand one behind the other from byte 2 on
            let (mut at, skipped) = (2, r.below(11));
            for _ in 0..skipped {
                at += 3 + usize::from(file[at + 2]);
            }
            file.drain(at..at + 3 + usize::from(file[at + 2]));
        }
        _ => {}
    }
    file
}

fn some_equation(r: &mut Random, m: &Model) -> Vec<u8> {
    let mut eq = Vec::new();
    let n = 1 + r.below(4);
    for i in 0..n {
        let t = (r.word() % (u64::from(m.latest) + 2)) as u32;
        let first = [0x80, 0x90, 0xa0, 0xb0, 0xc0, 0xd0][r.below(6)];
        // now and then an order on text, or another code: refused
        let text_code = [0x83, 0x83, 0x83, 0x83, 0xb3, 0xb3, 0xb3, 0x93, 0xa3, 0x84][r.below(10)];
        let text: Vec<u8> = (0..r.below(9)).map(|_| b"ab**?nd"[r.below(7)]).collect();
        eq.extend(match r.below(6) {
            0 => after(t),
            1 => relation(first, 0x12, &t.to_le_bytes()),
            2 => relation(first, 1, &[r.below(usize::from(u8::MAX)) as u8]),
            3 => relation(first, 8, &[r.below(4) as u8, 0]),
            4 => relation(text_code, 2, &text),
            _ => relation(text_code, [0x14, 0x22][r.below(2)], &text),
        });
        if 0 < i {
            eq.push(1 + r.below(2) as u8);
        }
    }
    if r.chance(1, 2) {
        eq.push(0);
    }
    if r.chance(1, 6) {
        let at = r.below(eq.len());
        eq[at] = r.word() as u8;
    }
    if r.chance(1, 40) {
        eq.resize(250 + r.below(10), 0);
    }
    eq
}

/// Places that have a file, places that have none, and places that no store has.
fn some_place(r: &mut Random, p: &Pair) -> usize {
    match r.below(20) {
        0 => 256,
        1 => usize::MAX - r.below(3),
        2 => 255,
        3 => p.model.files.len(),
        _ => r.below(p.model.files.len()),
    }
}

fn one_call(r: &mut Random, p: &mut Pair, sending: &mut [Vec<u8>]) {
    let most = 256 * p.model.free.len();
    let place = some_place(r, p);
    match r.below(100) {
        0..=19 => {
            let file = some_file(r, most);
            let size = match r.below(30) {
                0 => 0,
                1 => u32::MAX - r.below(300) as u32,
                2 => (most + r.below(2)) as u32,
                3 => r.below(most + 1) as u32,
                _ => file.len() as u32,
            };
            if let Some(begun) = p.begin(size) {
                sending[begun] = file;
            }
        }
        20..=64 => {
            // the next bytes of the file that is sent, or now and then too many
            let sent = p
                .model
                .files
                .get(place)
                .and_then(Option::as_ref)
                .map_or(0, |f| f.bytes.len());
            let rest: Vec<u8> = sending
                .get(place)
                .map_or(Vec::new(), |f| f.get(sent..).unwrap_or(&[]).to_vec());
            let n = match r.below(10) {
                0 => rest.len(),
                1 => r.below(rest.len() + 1),
                _ => rest.len().min(256),
            };
            let mut more = rest[..n].to_vec();
            if r.chance(1, 12) {
                more.extend(vec![9; 1 + r.below(300)]);
            }
            p.append(place, &more);
        }
        65..=69 => p.discard(place),
        70..=79 => {
            let time = p.model.latest + 1 + r.below(3) as u32;
            p.complete(place, time);
        }
        80..=84 => {
            p.check(place);
        }
        85..=92 => {
            let eq = some_equation(r, &p.model);
            let room = [50, 50, 60, 3, 0][r.below(5)];
            let most = [1, 2, 50, 50, 3, 0, 51][r.below(7)];
            p.select(&eq, room, most);
        }
        _ => {
            let held = p
                .model
                .files
                .get(place)
                .and_then(Option::as_ref)
                .map_or(0, |f| 256 * f.blocks.len());
            let (at, n) = (r.below(held + 2), r.below(600));
            let at = if r.chance(1, 20) {
                usize::MAX - r.below(2)
            } else {
                at
            };
            p.read(place.min(65535), at, n);
        }
    }
}

fn calls(
    blocks: usize,
    files: usize,
    seed: u64,
    steps: usize,
) -> BTreeMap<(&'static str, u8), usize> {
    let mut r = Random::new(seed);
    let mut p = Pair::new(blocks, files);
    let mut sending = vec![Vec::new(); files];
    for _ in 0..steps {
        one_call(&mut r, &mut p, &mut sending);
        // a store that is nearly full is emptied in part
        if p.model.free_count() == 0 && r.chance(1, 10) {
            let place = r.below(files);
            p.discard(place);
        }
    }
    p.given
}

/// Each of these answers was given at least twice, so that the calls were not all of one kind. 3 is not among them: see cases.rs.
fn all_answers(given: &BTreeMap<(&'static str, u8), usize>) {
    for (call, numbers) in [
        ("begin", &[0, 13][..]),
        ("append", &[0, 16, 33, 35]),
        ("discard", &[0, 33, 35]),
        ("check", &[0, 6, 7, 14, 15, 16, 33, 35]),
        ("complete", &[0, 6, 7, 14, 33, 35]),
        ("select", &[8, 33]),
        ("select none", &[0]),
        ("select some", &[0]),
        ("select most", &[0]),
        ("read", &[0, 33, 35]),
    ] {
        for &number in numbers {
            let n = given.get(&(call, number)).copied().unwrap_or(0);
            assert!(2 <= n, "{call} gave {number} {n} times: {given:?}");
        }
    }
}

#[test]
fn least_sizes() {
    for seed in 0..20 {
        calls(1, 1, seed, 500);
    }
}

#[test]
fn one_block_many_files_and_many_blocks_one_file() {
    calls(1, 256, 1, 4000);
    calls(4096, 1, 2, 1000);
}

#[test]
fn sizes_around_a_word() {
    for (seed, blocks) in [62, 63, 64, 65, 66, 127, 128, 129].into_iter().enumerate() {
        calls(blocks, 1 + seed * 5, 100 + seed as u64, 3000);
    }
}

#[test]
fn the_program_s_sizes() {
    for seed in 0..4 {
        all_answers(&calls(128, 32, 200 + seed, 6000));
    }
}

#[test]
fn most_sizes() {
    all_answers(&calls(4096, 256, 300, 12000));
}
