//! Which facts of refusal 35 are broken in the memory that is lent, by name, and which local refusal it gets before a session is looked at.
//!
//! Written from document 01 ("Sizes", "Packets", "Two states a session", "Refusals by number") and docs/DECISIONS.md (D31, D36, D37, D38, D40,
//! D43, D57, D58, D59, D83, D127); where each word stands is from docs/EMBEDDING.md and the head of crates/embed/specs/Words.antt. Not from the
//! server's code, nor from its definitions of soundness. All facts are judged, also behind the first broken one.
use crate::image::{HEAD, PART, SESSION};
use crate::proved::Proved;
use std::fmt;

/// The words of the state, for four sessions however many are in use.
const STATE: usize = HEAD + 4 * SESSION;
/// The most facts of one kind.
pub const MOST: usize = 4;

/// A fact; those of sessions are one for each session.
#[derive(Clone, Copy, Debug, PartialEq, Eq)]
pub enum Fact {
    GivenFits,
    Flag,
    UplinkCase,
    UplinkFits,
    UplinkUnused,
    DownlinkCase,
    DownlinkFits,
    DownlinkUnused,
    Owner,
    MapBit,
    PastTheEnd,
    FreePlace,
    Blocks,
    NumberGiven,
    Received,
    TimeGiven,
    Whole,
    NumberOnce,
    TimeOnce,
    UploadFile,
    UploadPartial,
    UploadBytes,
    SendingFile,
    SendingBytes,
    EndedFile,
    AbortingFile,
    ListedFile,
    ListedDone,
    ListedBytes,
    Count,
    Next,
    Selected,
    Announced,
    Held,
}

const ONE: &[&str] = &[""];
const GIVEN: &[&str] = &["number", "time"];
const SESSIONS: &[&str] = &["1", "2", "3", "4"];

/// Each fact in words, and what it is one of.
const TABLE: [(Fact, &str, &[&str]); FACTS] = [
    // D83: "words that are no state (a case or flag that is none, a 32-bit field above 32 bits)"
    (Fact::GivenFits, "the last one given has 32 bits", GIVEN),
    (Fact::Flag, "a session is open or closed", SESSIONS),
    (Fact::UplinkCase, "an uplink has one of its cases", SESSIONS),
    (
        Fact::UplinkFits,
        "an uplink's numbers have 32 bits",
        SESSIONS,
    ),
    (Fact::UplinkUnused, "an uplink's unused word is 0", SESSIONS),
    (
        Fact::DownlinkCase,
        "a downlink has one of its cases",
        SESSIONS,
    ),
    (
        Fact::DownlinkFits,
        "a downlink's numbers have 32 bits",
        SESSIONS,
    ),
    (
        Fact::DownlinkUnused,
        "a downlink's unused word is 0",
        SESSIONS,
    ),
    // "demand 3's facts on blocks": each block is free or belongs to one file
    (Fact::Owner, "a block's owner is a file place", ONE),
    (Fact::MapBit, "a block's bit is 1 where it is free", ONE),
    (Fact::PastTheEnd, "no bit past the last block is 1", ONE),
    (Fact::FreePlace, "a place with no file holds no block", ONE),
    (Fact::Blocks, "a file holds the blocks of its length", ONE),
    // "numbers or upload times", "a length .. points at what the store lacks"
    (Fact::NumberGiven, "a file's number was given", ONE),
    (Fact::Received, "no more bytes than announced", ONE),
    (Fact::TimeGiven, "a file's upload time was given", ONE),
    (Fact::Whole, "a complete file has all its bytes", ONE),
    (Fact::NumberOnce, "no two files have one number", ONE),
    (Fact::TimeOnce, "no two files have one upload time", ONE),
    // D58, and D59 for the bytes of an upload
    (Fact::UploadFile, "an upload names a file", SESSIONS),
    (Fact::UploadPartial, "an upload's file is partial", SESSIONS),
    (
        Fact::UploadBytes,
        "an upload's bytes are within the file's",
        SESSIONS,
    ),
    (Fact::SendingFile, "a file being sent is complete", SESSIONS),
    (
        Fact::SendingBytes,
        "the bytes sent are within the file",
        SESSIONS,
    ),
    (
        Fact::EndedFile,
        "a file that was sent is complete",
        SESSIONS,
    ),
    (
        Fact::AbortingFile,
        "a file being aborted is complete",
        SESSIONS,
    ),
    // D127
    (Fact::ListedFile, "a listed file is complete", SESSIONS),
    (
        Fact::ListedDone,
        "a directory is at one of its files, or at its end",
        SESSIONS,
    ),
    (
        Fact::ListedBytes,
        "the bytes listed are within the file",
        SESSIONS,
    ),
    (Fact::Count, "at most MAXSEL files are selected", SESSIONS),
    (
        Fact::Next,
        "the next selected file is one of them",
        SESSIONS,
    ),
    (Fact::Selected, "a selected file is complete", SESSIONS),
    (
        Fact::Announced,
        "a packet begun announces at most 256",
        SESSIONS,
    ),
    (Fact::Held, "a packet begun is not at its end", SESSIONS),
];

pub const FACTS: usize = Fact::Held as usize + 1;

impl Fact {
    pub fn all() -> impl Iterator<Item = Fact> {
        TABLE.iter().map(|row| row.0)
    }

    pub fn name(self) -> &'static str {
        TABLE[self as usize].1
    }

    /// What the facts of this kind are about, one for each.
    pub fn each(self) -> &'static [&'static str] {
        TABLE[self as usize].2
    }
}

/// A set of broken facts: for each kind one bit for each fact of it.
#[derive(Clone, Copy, Debug, PartialEq, Eq)]
pub struct Broken {
    bits: [[bool; MOST]; FACTS],
    count: usize,
}

impl Broken {
    fn none() -> Broken {
        Broken {
            bits: [[false; MOST]; FACTS],
            count: 0,
        }
    }

    fn unless(&mut self, holds: bool, fact: Fact, which: usize) {
        let bit = &mut self.bits[fact as usize][which];
        if !holds && !*bit {
            *bit = true;
            self.count += 1;
        }
    }

    pub fn count(&self) -> usize {
        self.count
    }

    pub fn has(&self, fact: Fact) -> bool {
        self.bits[fact as usize].contains(&true)
    }

    /// The broken fact, where there is exactly one.
    pub fn only(&self) -> Option<(Fact, usize)> {
        if self.count != 1 {
            return None;
        }
        let which = |fact: Fact| self.bits[fact as usize].iter().position(|bit| *bit);
        Fact::all().find_map(|fact| Some((fact, which(fact)?)))
    }
}

impl fmt::Display for Broken {
    fn fmt(&self, f: &mut fmt::Formatter) -> fmt::Result {
        let names: Vec<&str> = Fact::all()
            .filter(|fact| self.has(*fact))
            .map(Fact::name)
            .collect();
        write!(f, "[{}]", names.join("; "))
    }
}

/// What is said of the memory that is lent.
#[derive(Clone, Copy, Debug, PartialEq, Eq)]
pub struct Judged {
    pub broken: Broken,
    /// The refusal that comes before those of the session and the output.
    pub refused: Option<u8>,
}

/// "Order: 33, 35, 34, 32 first": the sizes in the words and the lengths come before the question whether the words are a state (D83).
pub fn judge(lent: &Proved) -> Judged {
    let mut broken = Broken::none();
    let answer = |refused: Option<u8>, broken| Judged { broken, refused };
    if lent.state.len() < STATE || lent.counts.len() < 2 {
        return answer(Some(33), broken);
    }
    words(&lent.state, &mut broken);
    let sizes = match Sizes::of(lent).filter(|sizes| sizes.all_fit(lent)) {
        Some(sizes) => sizes,
        None => return answer(Some(33), broken),
    };
    blocks(lent, sizes, &mut broken);
    let files = Files::of(lent, sizes);
    files.judge(lent, &mut broken);
    sessions(lent, sizes, &files, &mut broken);
    answer((broken.count != 0).then_some(35), broken)
}

// ---- words

fn has_32_bits(word: u64) -> bool {
    word <= u32::MAX.into()
}

/// A number of 32 bits; what stands above them is a fact of its own.
fn low(word: u64) -> u64 {
    word & u64::from(u32::MAX)
}

fn session_words(state: &[u64], index: usize) -> &[u64] {
    &state[HEAD + SESSION * index..][..SESSION]
}

/// The words of all four sessions, closed ones too.
fn words(state: &[u64], broken: &mut Broken) {
    broken.unless(has_32_bits(state[4]), Fact::GivenFits, 0);
    broken.unless(has_32_bits(state[5]), Fact::GivenFits, 1);
    for index in 0..4 {
        let words = session_words(state, index);
        broken.unless(words[0] <= 1, Fact::Flag, index);
        match words[1] {
            // idle, or ignoring data
            0 | 2 => broken.unless(words[2..5] == [0, 0, 0], Fact::UplinkUnused, index),
            // receiving: place, offset, bytes received
            1 => {
                let fit = has_32_bits(words[3]) && has_32_bits(words[4]);
                broken.unless(fit, Fact::UplinkFits, index);
            }
            _ => broken.unless(false, Fact::UplinkCase, index),
        }
        match words[5] {
            // idle
            0 => broken.unless(words[6..9] == [0, 0, 0], Fact::DownlinkUnused, index),
            // sending: place, offset, bytes sent
            1 => {
                let fit = has_32_bits(words[7]) && has_32_bits(words[8]);
                broken.unless(fit, Fact::DownlinkFits, index);
            }
            // ended, or aborting: place
            2 | 3 => broken.unless(words[7..9] == [0, 0], Fact::DownlinkUnused, index),
            // a directory, short or long, of one file: place, files behind, bytes of the next one's entry; or of the selection: its first one, and
            // the same
            4..=7 => {}
            _ => broken.unless(false, Fact::DownlinkCase, index),
        }
    }
}

// ---- sizes

#[derive(Clone, Copy)]
struct Sizes {
    blocks: usize,
    files: usize,
    sessions: usize,
    maxsel: usize,
}

impl Sizes {
    /// The sizes that the state says, where they are in document 01's table.
    fn of(lent: &Proved) -> Option<Sizes> {
        let size = |at: usize, most: u64| {
            let word = lent.state[at];
            (1..=most).contains(&word).then_some(word as usize)
        };
        let (blocks, files) = (size(0, 4096)?, size(1, 256)?);
        let (sessions, maxsel) = (size(2, 4)?, size(3, 50)?);
        Some(Sizes {
            blocks,
            files,
            sessions,
            maxsel,
        })
    }

    fn map_fits(&self, lent: &Proved) -> bool {
        (self.blocks + 63) / 64 <= lent.map.len()
    }

    fn all_fit(&self, lent: &Proved) -> bool {
        256 * self.blocks <= lent.disk.len()
            && self.map_fits(lent)
            && self.blocks <= lent.owner.len()
            && 4 * self.files <= lent.table.len()
            && self.sessions * self.maxsel <= lent.selected.len()
            && self.sessions * PART <= lent.held.len()
    }
}

/// The sizes are in the table, and the map, which is all that counting the free blocks is lent besides the words, has room for them.
pub fn map_fits(lent: &Proved) -> bool {
    Sizes::of(lent).map_or(false, |sizes| sizes.map_fits(lent))
}

// ---- blocks

fn blocks(lent: &Proved, sizes: Sizes, broken: &mut Broken) {
    let bit = |block: usize| lent.map[block / 64] >> (block % 64) & 1 == 1;
    for block in 0..sizes.blocks {
        // 0 for a free block, else the place and 1
        let owner = usize::from(lent.owner[block]);
        broken.unless(owner <= sizes.files, Fact::Owner, 0);
        broken.unless(bit(block) == (owner == 0), Fact::MapBit, 0);
    }
    for past in sizes.blocks..(sizes.blocks + 63) / 64 * 64 {
        broken.unless(!bit(past), Fact::PastTheEnd, 0);
    }
}

// ---- files

/// A file's record; number 0 is that of no file (D36).
#[derive(Clone, Copy)]
struct Record {
    number: u32,
    length: u32,
    received: u32,
    /// 0 for a partial file
    time: u32,
    /// the blocks whose owner is this place
    blocks: usize,
}

impl Record {
    fn is_complete(&self) -> bool {
        self.number != 0 && self.time != 0
    }
}

struct Files {
    records: Vec<Record>,
    /// The numbers of the complete files, rising.
    complete: Vec<u32>,
}

fn stands_twice(mut numbers: Vec<u32>) -> bool {
    numbers.sort_unstable();
    numbers.windows(2).any(|two| two[0] == two[1])
}

impl Files {
    fn of(lent: &Proved, sizes: Sizes) -> Files {
        let mut blocks = vec![0; sizes.files];
        for owner in &lent.owner[..sizes.blocks] {
            let place = usize::from(*owner).wrapping_sub(1);
            if let Some(count) = blocks.get_mut(place) {
                *count += 1;
            }
        }
        let record = |(words, blocks): (&[u32], usize)| Record {
            number: words[0],
            length: words[1],
            received: words[2],
            time: words[3],
            blocks,
        };
        let words = lent.table[..4 * sizes.files].chunks(4);
        let records: Vec<Record> = words.zip(blocks).map(record).collect();
        let complete = records.iter().filter(|file| file.is_complete());
        let mut complete: Vec<u32> = complete.map(|file| file.number).collect();
        complete.sort_unstable();
        Files { records, complete }
    }

    /// The file that a place of a session names.
    fn named(&self, place: u64) -> Option<&Record> {
        let record = self.records.get(usize::try_from(place).ok()?)?;
        (record.number != 0).then_some(record)
    }

    fn judge(&self, lent: &Proved, broken: &mut Broken) {
        let (last_number, last_time) = (low(lent.state[4]), low(lent.state[5]));
        let (mut numbers, mut times) = (Vec::new(), Vec::new());
        for file in &self.records {
            if file.number == 0 {
                broken.unless(file.blocks == 0, Fact::FreePlace, 0);
                continue;
            }
            let needed = (file.length as usize + 255) / 256;
            broken.unless(file.blocks == needed, Fact::Blocks, 0);
            broken.unless(u64::from(file.number) <= last_number, Fact::NumberGiven, 0);
            broken.unless(file.received <= file.length, Fact::Received, 0);
            numbers.push(file.number);
            if file.time != 0 {
                broken.unless(u64::from(file.time) <= last_time, Fact::TimeGiven, 0);
                broken.unless(file.received == file.length, Fact::Whole, 0);
                times.push(file.time);
            }
        }
        broken.unless(!stands_twice(numbers), Fact::NumberOnce, 0);
        broken.unless(!stands_twice(times), Fact::TimeOnce, 0);
    }
}

// ---- sessions

/// The facts on the open sessions; of a closed one (D57), and of one beyond those in use (D58), nothing is looked at.
fn sessions(lent: &Proved, sizes: Sizes, files: &Files, broken: &mut Broken) {
    for index in 0..sizes.sessions {
        let words = session_words(&lent.state, index);
        if words[0] != 1 {
            continue;
        }
        uplink(&words[1..5], files, index, broken);
        downlink(&words[5..9], files, index, broken);
        packet(words[9], &lent.held[PART * index..][..PART], index, broken);
        let selected = &lent.selected[sizes.maxsel * index..][..sizes.maxsel];
        match words[5] {
            4 | 5 => directory_of_one(&words[6..9], files, index, broken),
            6 | 7 => directory_of_selected(&words[6..9], words[11], selected, files, index, broken),
            _ => {}
        }
        selection(words[10], words[11], selected, files, index, broken);
    }
}

fn uplink(words: &[u64], files: &Files, index: usize, broken: &mut Broken) {
    if words[0] != 1 {
        return;
    }
    let file = match files.named(words[1]) {
        Some(file) => file,
        None => return broken.unless(false, Fact::UploadFile, index),
    };
    let bytes = low(words[2]) + low(words[3]);
    broken.unless(file.time == 0, Fact::UploadPartial, index);
    broken.unless(bytes <= file.received.into(), Fact::UploadBytes, index);
}

fn downlink(words: &[u64], files: &Files, index: usize, broken: &mut Broken) {
    let complete = files.named(words[1]).filter(|file| file.is_complete());
    match (words[0], complete) {
        (1, Some(file)) => {
            let end = low(words[2]) + low(words[3]);
            broken.unless(end <= file.length.into(), Fact::SendingBytes, index);
        }
        (1, None) => broken.unless(false, Fact::SendingFile, index),
        (2, None) => broken.unless(false, Fact::EndedFile, index),
        (3, None) => broken.unless(false, Fact::AbortingFile, index),
        _ => {}
    }
}

/// A directory is at its first file, or at its end: no file is left to have bytes then.
fn directory_of_one(words: &[u64], files: &Files, index: usize, broken: &mut Broken) {
    let complete = files.named(words[0]).filter(|file| file.is_complete());
    broken.unless(complete.is_some(), Fact::ListedFile, index);
    broken.unless(words[1] <= 1, Fact::ListedDone, index);
    match (words[1], complete) {
        (0, Some(file)) => broken.unless(words[2] <= file.length.into(), Fact::ListedBytes, index),
        (1, _) => broken.unless(words[2] == 0, Fact::ListedBytes, index),
        _ => {}
    }
}

/// The files are those of the selection from the first one named up to the session's place in it, or none where that place is before it.
fn directory_of_selected(
    words: &[u64],
    next: u64,
    selected: &[u32],
    files: &Files,
    index: usize,
    broken: &mut Broken,
) {
    let count = next.min(selected.len() as u64).saturating_sub(words[0]);
    broken.unless(words[1] <= count, Fact::ListedDone, index);
    if words[1] == count {
        return broken.unless(words[2] == 0, Fact::ListedBytes, index);
    }
    if words[1] < count {
        let number = selected[(words[0] + words[1]) as usize];
        let mut named = files.records.iter().filter(|file| file.number == number);
        // a selected number that no file has is a fact of its own
        if let (false, Some(file)) = (number == 0, named.next()) {
            broken.unless(words[2] <= file.length.into(), Fact::ListedBytes, index);
        }
    }
}

/// "An announced length above 256 closes the link at its second byte", and a packet at its end is not unfinished.
fn packet(held: u64, part: &[u8], index: usize, broken: &mut Broken) {
    if held < 2 {
        return;
    }
    let announced = u64::from(part[0]) + 256 * u64::from(part[1] >> 5);
    broken.unless(announced <= 256, Fact::Announced, index);
    broken.unless(held < 2 + announced, Fact::Held, index);
}

fn selection(
    count: u64,
    next: u64,
    selected: &[u32],
    files: &Files,
    index: usize,
    broken: &mut Broken,
) {
    let most = selected.len();
    broken.unless(count <= most as u64, Fact::Count, index);
    broken.unless(next <= count, Fact::Next, index);
    let count = usize::try_from(count).map_or(most, |count| count.min(most));
    let named = |number: &u32| files.complete.binary_search(number).is_ok();
    broken.unless(selected[..count].iter().all(named), Fact::Selected, index);
}

// ---- what calls keep

/// "A maximum of 10 file headers will be transmitted for each DIR command."
pub const LISTED: u64 = 10;

/// The length of the header of the file at a place, as its body_offset says, which stands at bytes 68 and 69 of each complete file.
fn header_length(lent: &Proved, place: u64) -> Option<u64> {
    let owner = u16::try_from(place).ok()?.checked_add(1)?;
    let block = lent.owner.iter().position(|other| *other == owner)?;
    let offset = lent.disk.get(256 * block + 68..256 * block + 70)?;
    Some(u64::from(offset[0]) + 256 * u64::from(offset[1]))
}

/// What calls keep of a directory: it has one to ten files, and is within the entry of the next one.
fn directory_kept(
    lent: &Proved,
    files: &Files,
    words: &[u64],
    selected: &[u32],
) -> Result<(), &'static str> {
    let (which, done, sent) = (words[6], words[7], words[8]);
    let mut place = Some(which);
    let mut count = 1;
    if 6 <= words[5] {
        count = words[11].saturating_sub(which);
        let number = usize::try_from(which.saturating_add(done)).ok();
        let number = number.and_then(|at| selected.get(at)).copied().unwrap_or(0);
        let named = files.records.iter().position(|file| file.number == number);
        place = named.map(|place| place as u64);
    }
    if count == 0 {
        return Err("a directory has a file");
    }
    if LISTED < count {
        return Err("a directory has at most ten files");
    }
    let entry = match words[5] % 2 {
        0 => Some(80),
        _ => place.and_then(|place| header_length(lent, place)),
    };
    match done == count || entry.map_or(false, |length| sent < length) {
        true => Ok(()),
        false => Err("a directory is within an entry"),
    }
}

/// What holds of the sessions in every state that calls made and is no fact of 35 (D58, D59, D127): the first that is broken in memory with no
/// broken fact.
pub fn kept(lent: &Proved) -> Result<(), &'static str> {
    let sizes = Sizes::of(lent).ok_or("the sizes are in the table")?;
    let files = Files::of(lent, sizes);
    let mut uploads = Vec::new();
    for index in 0..4 {
        let words = session_words(&lent.state, index);
        if words[0] == 1 && sizes.sessions <= index {
            return Err("a session beyond the last is closed");
        }
        if words[0] == 1 && 4 <= words[5] {
            let selected = &lent.selected[sizes.maxsel * index..][..sizes.maxsel];
            directory_kept(lent, &files, words, selected)?;
        }
        if words[0] != 1 || words[1] != 1 {
            continue;
        }
        let file = files.named(words[2]).ok_or("an upload names a file")?;
        if words[3] + words[4] != file.received.into() {
            return Err("an upload's bytes are the file's");
        }
        if uploads.contains(&words[2]) {
            return Err("two sessions do not upload one file");
        }
        uploads.push(words[2]);
    }
    Ok(())
}
