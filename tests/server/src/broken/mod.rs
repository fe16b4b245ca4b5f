//! States in which one fact of refusal 35 is broken: "demand 3's facts on blocks, numbers or upload times are broken, or a length, offset or
//! name points at what the store lacks". Each fact names the changes of a word, or of as few words as can be, that break it in a state.
mod links;
mod store;

use crate::image::{HEAD, SESSION};
use crate::proved::Proved;
use crate::words::Word;

/// Words that are changed together.
pub type Change = Vec<Word>;

pub fn apply(proved: &mut Proved, change: &[Word]) {
    change.iter().for_each(|word| word.apply(proved));
}

/// A fact by its name, and the changes that break it.
pub type Fact = (&'static str, fn(&State) -> Vec<Change>);

pub const FACTS: [Fact; 33] = [
    // crates/blocks/specs/Check.antt
    ("an owner is a place", store::owner_beyond),
    ("the map's bit of each block", store::map_bit),
    ("no bit past the last block", store::map_past_the_end),
    ("a block's owner", store::owner_of_another),
    // crates/table/specs/Fit.antt
    (
        "a free place holds no block: number gone",
        store::file_without_number,
    ),
    (
        "a free place holds no block: block held",
        store::block_without_file,
    ),
    ("the number was given", store::number_not_given),
    ("no more bytes than announced", store::received_beyond),
    (
        "the blocks of the announced length",
        store::size_of_other_blocks,
    ),
    ("the upload time was given", store::time_not_given),
    (
        "a complete file has all its bytes",
        store::complete_with_fewer,
    ),
    ("no two files of one number", store::number_twice),
    ("no two upload times the same", store::time_twice),
    // crates/links/specs/Sound.antt
    ("an upload names a file", links::upload_of_no_file),
    (
        "an upload names a partial",
        links::upload_of_a_complete_file,
    ),
    (
        "an upload's offset and bytes are within the file's",
        links::upload_bytes,
    ),
    ("an upload's bytes do not wrap", links::upload_bytes_wrapped),
    (
        "a sending download names a complete file",
        links::sending_of_none,
    ),
    (
        "an ended download names a complete file",
        links::ended_of_none,
    ),
    (
        "an aborting download names a complete file",
        links::aborting_of_none,
    ),
    (
        "a download's offset is within the file",
        links::download_beyond,
    ),
    ("a download's offset does not wrap", links::download_wrapped),
    (
        "a directory of one file names a complete one",
        links::listed_of_none,
    ),
    (
        "a directory is at one of its files, or at its end",
        links::listed_beyond,
    ),
    (
        "the files of a directory are not counted below none",
        links::listed_wrapped,
    ),
    (
        "a directory's bytes are within the file",
        links::listed_bytes,
    ),
    ("at most MAXSEL files are selected", links::count_beyond),
    ("the next selected file is among them", links::next_beyond),
    (
        "a selected number is a complete file's",
        links::selected_of_none,
    ),
    (
        "an unfinished packet is short of its end",
        links::held_beyond,
    ),
    (
        "an unfinished packet announces at most 256",
        links::held_too_long,
    ),
    // crates/embed/specs/Words.antt
    ("a word is one that the state can have", links::no_such_case),
    ("a word that a case does not use is 0", links::unused_word),
];

/// What calls keep besides, and refusal 35 does not ask (crates/links/specs/Kept.antt), by the oracle's names.
pub const KEPT: [Fact; 6] = [
    (
        "an upload's bytes are the file's",
        links::upload_fewer_bytes,
    ),
    ("a session beyond the last is closed", links::session_beyond),
    ("two sessions do not upload one file", links::upload_twice),
    ("a directory has a file", links::directory_of_none),
    (
        "a directory has at most ten files",
        links::directory_of_many,
    ),
    (
        "a directory is within an entry",
        links::directory_beyond_entry,
    ),
];

/// A record of the file table.
#[derive(Clone, Copy, Debug)]
struct Record {
    place: usize,
    number: u32,
    size: u32,
    received: u32,
    time: u32,
}

impl Record {
    fn word(&self, index: usize) -> usize {
        4 * self.place + index
    }

    fn is_complete(&self) -> bool {
        self.number != 0 && self.time != 0
    }

    fn is_partial(&self) -> bool {
        self.number != 0 && self.time == 0
    }
}

/// An open session, by the index of its first word.
#[derive(Clone, Copy, Debug)]
struct Link {
    index: usize,
    at: usize,
}

/// What is lent, as the facts read it.
pub struct State<'a> {
    lent: &'a Proved,
    blocks: usize,
    files: usize,
    sessions: usize,
    most: usize,
    last_number: u32,
    last_time: u32,
}

impl State<'_> {
    pub fn of(lent: &Proved) -> State<'_> {
        let size = |at: usize| lent.state[at] as usize;
        State {
            lent,
            blocks: size(0),
            files: size(1),
            sessions: size(2),
            most: size(3),
            last_number: lent.state[4] as u32,
            last_time: lent.state[5] as u32,
        }
    }

    fn records(&self) -> Vec<Record> {
        let words = self.lent.table[..4 * self.files].chunks(4);
        let record = |(place, word): (usize, &[u32])| Record {
            place,
            number: word[0],
            size: word[1],
            received: word[2],
            time: word[3],
        };
        words.enumerate().map(record).collect()
    }

    fn record(&self, place: u64) -> Record {
        self.records()[place as usize]
    }

    fn with(&self, wanted: impl Fn(&Record) -> bool) -> Vec<Record> {
        self.records()
            .into_iter()
            .filter(|file| wanted(file))
            .collect()
    }

    fn complete(&self) -> Vec<Record> {
        self.with(Record::is_complete)
    }

    fn partial(&self) -> Vec<Record> {
        self.with(Record::is_partial)
    }

    fn live(&self) -> Vec<Record> {
        self.with(|file| file.number != 0)
    }

    /// Places of no file, and numbers of no place.
    fn nowhere(&self) -> Vec<u64> {
        let free = self.with(|file| file.number == 0).into_iter();
        let mut places: Vec<u64> = free.map(|file| file.place as u64).collect();
        places.extend([self.files as u64, 1 << 32, u64::MAX]);
        places
    }

    fn word(&self, at: usize) -> u64 {
        self.lent.state[at]
    }

    fn links(&self) -> Vec<Link> {
        let all = (0..self.sessions).map(|index| Link {
            index,
            at: HEAD + SESSION * index,
        });
        all.filter(|link| self.word(link.at) == 1).collect()
    }

    /// The open sessions whose uplink, or downlink, is in this case.
    fn uplinks(&self, case: u64) -> Vec<Link> {
        let links = self.links().into_iter();
        links
            .filter(|link| self.word(link.at + 1) == case)
            .collect()
    }

    fn downlinks(&self, case: u64) -> Vec<Link> {
        let links = self.links().into_iter();
        links
            .filter(|link| self.word(link.at + 5) == case)
            .collect()
    }

    fn is_free(&self, block: usize) -> bool {
        self.lent.owner[block] == 0
    }

    /// The map's word of a block with its bit turned.
    fn turned(&self, block: usize) -> Word {
        Word::map(block / 64, self.lent.map[block / 64] ^ 1 << (block % 64))
    }
}

/// One change for each word.
fn each(words: impl IntoIterator<Item = Word>) -> Vec<Change> {
    words.into_iter().map(|word| vec![word]).collect()
}
