//! The facts on the sessions, and on the words that stand for them.
use super::{each, Change, Link, Record, State, Word};
use crate::image::{HEAD, PART, SESSION};

// ---- uploads

pub(super) fn upload_of_no_file(s: &State) -> Vec<Change> {
    let nowhere = |link: &Link| {
        let at = link.at + 2;
        s.nowhere()
            .into_iter()
            .map(move |place| Word::state(at, place))
    };
    each(s.uplinks(1).iter().flat_map(nowhere))
}

/// The bytes are those of the complete file, so that they break nothing.
pub(super) fn upload_of_a_complete_file(s: &State) -> Vec<Change> {
    let mut changes = Vec::new();
    for link in s.uplinks(1) {
        for file in s.complete() {
            changes.push(vec![
                Word::state(link.at + 2, file.place as u64),
                Word::state(link.at + 3, file.received.into()),
                Word::state(link.at + 4, 0),
            ]);
        }
    }
    changes
}

/// More bytes than the file has.
pub(super) fn upload_bytes(s: &State) -> Vec<Change> {
    let mut changes = Vec::new();
    for link in s.uplinks(1) {
        let file = s.record(s.word(link.at + 2));
        changes.extend(each([
            Word::state(link.at + 3, s.word(link.at + 3) + 1),
            Word::state(link.at + 4, s.word(link.at + 4) + 1),
            Word::state(link.at + 4, u32::MAX.into()),
        ]));
        if 0 < file.received {
            changes.push(vec![Word::table(file.word(2), file.received - 1)]);
        }
    }
    changes
}

/// Fewer bytes than the file has: they point at bytes that are there.
pub(super) fn upload_fewer_bytes(s: &State) -> Vec<Change> {
    let words = s.uplinks(1).into_iter();
    let words = words.flat_map(|link| [link.at + 3, link.at + 4]);
    let words = words.filter(|at| 0 < s.word(*at));
    each(words.flat_map(|at| [0, s.word(at) - 1].map(|fewer| Word::state(at, fewer))))
}

/// 32-bit sums of these are the file's bytes.
pub(super) fn upload_bytes_wrapped(s: &State) -> Vec<Change> {
    let wrapped = |link: &Link| {
        let received = s.record(s.word(link.at + 2)).received;
        vec![
            Word::state(link.at + 3, u32::MAX.into()),
            Word::state(link.at + 4, u64::from(received) + 1),
        ]
    };
    s.uplinks(1).iter().map(wrapped).collect()
}

/// Another session uploads the file that one is uploading.
pub(super) fn upload_twice(s: &State) -> Vec<Change> {
    let mut changes = Vec::new();
    for one in s.uplinks(1) {
        for other in s.links().iter().filter(|other| other.index != one.index) {
            changes.push(
                (1..5)
                    .map(|word| Word::state(other.at + word, s.word(one.at + word)))
                    .collect(),
            );
        }
    }
    changes
}

// ---- downloads

/// Places of a download's file that is not complete.
fn not_complete(s: &State, case: u64) -> Vec<Change> {
    let partial = s.partial().into_iter().map(|file| file.place as u64);
    let places: Vec<u64> = partial.chain(s.nowhere()).collect();
    let links = s.downlinks(case);
    each(
        links
            .iter()
            .flat_map(|link| places.iter().map(|&place| Word::state(link.at + 6, place))),
    )
}

pub(super) fn sending_of_none(s: &State) -> Vec<Change> {
    not_complete(s, 1)
}

pub(super) fn ended_of_none(s: &State) -> Vec<Change> {
    not_complete(s, 2)
}

pub(super) fn aborting_of_none(s: &State) -> Vec<Change> {
    not_complete(s, 3)
}

pub(super) fn download_beyond(s: &State) -> Vec<Change> {
    let beyond = |link: &Link| {
        let size = u64::from(s.record(s.word(link.at + 6)).size);
        let (offset, sent) = (s.word(link.at + 7), s.word(link.at + 8));
        [
            Word::state(link.at + 7, size - sent + 1),
            Word::state(link.at + 8, size - offset + 1),
        ]
    };
    each(s.downlinks(1).iter().flat_map(beyond))
}

/// 32-bit sums of these are 0.
pub(super) fn download_wrapped(s: &State) -> Vec<Change> {
    let wrapped = |link: &Link| {
        vec![
            Word::state(link.at + 7, u32::MAX.into()),
            Word::state(link.at + 8, 1),
        ]
    };
    s.downlinks(1).iter().map(wrapped).collect()
}

// ---- directories

/// The open sessions with a directory of this case of one file, or of the selection, in either form.
fn directories(s: &State, case: u64) -> Vec<Link> {
    let mut links = s.downlinks(case);
    links.extend(s.downlinks(case + 1));
    links
}

/// How many files a directory has.
fn files_listed(s: &State, link: &Link) -> u64 {
    match s.word(link.at + 5) {
        4 | 5 => 1,
        _ => s.word(link.at + 11) - s.word(link.at + 6),
    }
}

/// The file that a directory has come to, if it is not at its end.
fn listed_file(s: &State, link: &Link) -> Option<Record> {
    let (which, done) = (s.word(link.at + 6), s.word(link.at + 7));
    if done == files_listed(s, link) {
        return None;
    }
    if s.word(link.at + 5) < 6 {
        return Some(s.record(which));
    }
    let number = s.lent.selected[link.index * s.most + (which + done) as usize];
    s.with(|file| file.number == number).pop()
}

pub(super) fn listed_of_none(s: &State) -> Vec<Change> {
    let mut changes = not_complete(s, 4);
    changes.extend(not_complete(s, 5));
    changes
}

/// One file more than it has lies behind, and no byte of the next one.
pub(super) fn listed_beyond(s: &State) -> Vec<Change> {
    let mut changes = Vec::new();
    for link in [directories(s, 4), directories(s, 6)].concat() {
        for done in [files_listed(s, &link) + 1, 1 << 32, u64::MAX] {
            changes.push(vec![
                Word::state(link.at + 7, done),
                Word::state(link.at + 8, 0),
            ]);
        }
    }
    changes
}

/// The first file is so far behind the session's place that a difference of 64 bits would count files.
pub(super) fn listed_wrapped(s: &State) -> Vec<Change> {
    let wrapped = |link: &Link| {
        vec![
            Word::state(link.at + 6, u64::MAX),
            Word::state(link.at + 7, 1),
            Word::state(link.at + 8, 0),
        ]
    };
    directories(s, 6).iter().map(wrapped).collect()
}

pub(super) fn listed_bytes(s: &State) -> Vec<Change> {
    let mut changes = Vec::new();
    for link in [directories(s, 4), directories(s, 6)].concat() {
        let size = listed_file(s, &link).map_or(0, |file| file.size.into());
        for sent in [size + 1, size + (1 << 32), u64::MAX] {
            changes.extend(each([Word::state(link.at + 8, sent)]));
        }
        // its end, with bytes
        changes.push(vec![
            Word::state(link.at + 7, files_listed(s, &link)),
            Word::state(link.at + 8, 1),
        ]);
    }
    changes
}

/// The words of a directory in the place of a session's downlink.
fn directory(link: &Link, words: [u64; 4]) -> Change {
    (link.at + 5..)
        .zip(words)
        .map(|(at, word)| Word::state(at, word))
        .collect()
}

/// The first file is the session's next one, or behind it.
pub(super) fn directory_of_none(s: &State) -> Vec<Change> {
    let mut changes = Vec::new();
    for link in s.links() {
        let next = s.word(link.at + 11);
        for (case, first) in [(6, next), (7, next), (7, next + 3), (6, u64::MAX)] {
            changes.push(directory(&link, [case, first, 0, 0]));
        }
    }
    changes
}

/// All selected files, from each of the first ones on.
pub(super) fn directory_of_many(s: &State) -> Vec<Change> {
    let mut changes = Vec::new();
    for link in s.links() {
        let count = s.word(link.at + 10);
        for first in 0..count.saturating_sub(10) {
            for (case, done) in [(6, 0), (7, 0), (6, count - first), (7, 10)] {
                let mut change = directory(&link, [case, first, done, 0]);
                change.push(Word::state(link.at + 11, count));
                changes.push(change);
            }
        }
    }
    changes
}

/// As many bytes of an entry as it has, or more, up to those of the file.
pub(super) fn directory_beyond_entry(s: &State) -> Vec<Change> {
    let mut changes = Vec::new();
    for link in s.links() {
        for file in s.complete() {
            let (place, size) = (file.place as u64, u64::from(file.size));
            for sent in [80, 81, size - 1, size] {
                let sent = sent.clamp(80, size);
                changes.push(directory(&link, [4, place, 0, sent]));
            }
            changes.push(directory(&link, [5, place, 0, size]));
        }
    }
    changes
}

// ---- selections

pub(super) fn count_beyond(s: &State) -> Vec<Change> {
    let counts = [s.most as u64 + 1, u64::MAX];
    each(
        s.links()
            .iter()
            .flat_map(|link| counts.map(|count| Word::state(link.at + 10, count))),
    )
}

pub(super) fn next_beyond(s: &State) -> Vec<Change> {
    let beyond = |link: &Link| {
        [s.word(link.at + 10) + 1, u64::MAX].map(|next| Word::state(link.at + 11, next))
    };
    each(s.links().iter().flat_map(beyond))
}

pub(super) fn selected_of_none(s: &State) -> Vec<Change> {
    let mut wrong = vec![0];
    wrong.extend(s.partial().iter().map(|file| file.number));
    wrong.extend(s.last_number.checked_add(1));
    let mut changes = Vec::new();
    for link in s.links() {
        let first = link.index * s.most;
        for at in first..first + s.word(link.at + 10) as usize {
            changes.extend(each(wrong.iter().map(|&number| Word::selected(at, number))));
        }
    }
    changes
}

// ---- unfinished packets

fn announced(part: &[u8]) -> u64 {
    u64::from(part[0]) + 256 * u64::from(part[1] / 32)
}

fn part<'a>(s: &State<'a>, link: &Link) -> &'a [u8] {
    &s.lent.held[PART * link.index..][..PART]
}

/// As many bytes as the packet has, or more.
pub(super) fn held_beyond(s: &State) -> Vec<Change> {
    let beyond = |link: &Link| {
        let whole = 2 + announced(part(s, link));
        [whole, 259, u64::MAX].map(|held| Word::state(link.at + 9, held))
    };
    each(s.links().iter().flat_map(beyond))
}

pub(super) fn held_too_long(s: &State) -> Vec<Change> {
    let begun = s
        .links()
        .into_iter()
        .filter(|link| 2 <= s.word(link.at + 9));
    let long = |link: &Link| Word::held(PART * link.index + 1, part(s, link)[1] | 0xe0);
    each(begun.map(|link| long(&link)))
}

// ---- words

/// A session beyond those in use is open: at rest, or uploading a partial, or what no file is.
pub(super) fn session_beyond(s: &State) -> Vec<Change> {
    let mut places = vec![None, Some(s.files as u64)];
    places.extend(s.partial().iter().map(|file| Some(file.place as u64)));
    let mut changes = Vec::new();
    for at in (s.sessions..4).map(|index| HEAD + SESSION * index) {
        for place in &places {
            let mut change = vec![Word::state(at, 1)];
            if let Some(place) = place {
                change.extend([Word::state(at + 1, 1), Word::state(at + 2, *place)]);
            }
            changes.push(change);
        }
    }
    changes
}

pub(super) fn no_such_case(s: &State) -> Vec<Change> {
    let mut changes = each([
        Word::state(4, s.word(4) + (1 << 32)),
        Word::state(5, s.word(5) + (1 << 32)),
    ]);
    for at in (0..4).map(|index| HEAD + SESSION * index) {
        changes.extend(each([
            Word::state(at, 2),
            Word::state(at, u64::MAX),
            Word::state(at + 1, 3),
            Word::state(at + 1, s.word(at + 1) + (1 << 32)),
            Word::state(at + 3, s.word(at + 3) + (1 << 32)),
            Word::state(at + 4, s.word(at + 4) + (1 << 32)),
            Word::state(at + 5, 8),
        ]));
        // the numbers of a directory have 64 bits
        if s.word(at + 5) < 4 {
            changes.extend(each([
                Word::state(at + 7, s.word(at + 7) + (1 << 32)),
                Word::state(at + 8, s.word(at + 8) + (1 << 32)),
            ]));
        }
    }
    changes
}

pub(super) fn unused_word(s: &State) -> Vec<Change> {
    let mut changes = Vec::new();
    for at in (0..4).map(|index| HEAD + SESSION * index) {
        if s.word(at + 1) != 1 {
            changes.extend(each((at + 2..at + 5).map(|word| Word::state(word, 1))));
        }
        let unused = match s.word(at + 5) {
            0 => at + 6..at + 9,
            2 | 3 => at + 7..at + 9,
            _ => at + 9..at + 9,
        };
        changes.extend(each(unused.map(|word| Word::state(word, 1))));
    }
    changes
}
