//! The facts on blocks, file numbers, lengths and upload times.
use super::{each, Change, Record, State, Word};

// ---- blocks

pub(super) fn owner_beyond(s: &State) -> Vec<Change> {
    let beyond = [s.files as u16 + 1, u16::MAX];
    each((0..s.blocks).flat_map(|block| beyond.map(|owner| Word::owner(block, owner))))
}

pub(super) fn map_bit(s: &State) -> Vec<Change> {
    each((0..s.blocks).map(|block| s.turned(block)))
}

pub(super) fn map_past_the_end(s: &State) -> Vec<Change> {
    let end = (s.blocks + 63) / 64 * 64;
    each((s.blocks..end).map(|block| s.turned(block)))
}

/// An owned block becomes free or another file's, and a free one some file's.
pub(super) fn owner_of_another(s: &State) -> Vec<Change> {
    let owner = |block| s.lent.owner[block];
    let owners = |block| (0..=s.files as u16).filter(move |&other| other != owner(block));
    each((0..s.blocks).flat_map(|block| {
        owners(block)
            .take(3)
            .map(move |other| Word::owner(block, other))
    }))
}

// ---- files

pub(super) fn file_without_number(s: &State) -> Vec<Change> {
    let held = s.with(|file| file.number != 0 && file.size != 0);
    each(held.iter().map(|file| Word::table(file.word(0), 0)))
}

pub(super) fn block_without_file(s: &State) -> Vec<Change> {
    let free = match s.with(|file| file.number == 0).pop() {
        Some(free) => free,
        None => return Vec::new(),
    };
    let blocks = (0..s.blocks).filter(|&block| s.is_free(block));
    blocks
        .map(|block| vec![Word::owner(block, free.place as u16 + 1), s.turned(block)])
        .collect()
}

pub(super) fn number_not_given(s: &State) -> Vec<Change> {
    let mut changes = Vec::new();
    if let Some(next) = s.last_number.checked_add(1) {
        changes = each(s.live().iter().map(|file| Word::table(file.word(0), next)));
    }
    if let Some(highest) = s.live().iter().map(|file| file.number).max() {
        changes.push(vec![Word::state(4, u64::from(highest) - 1)]);
    }
    changes
}

pub(super) fn received_beyond(s: &State) -> Vec<Change> {
    let beyond = |file: &Record| {
        [file.size + 1, u32::MAX].map(|received| Word::table(file.word(2), received))
    };
    each(s.live().iter().flat_map(beyond))
}

/// A partial's length, so that the bytes received stay within it.
pub(super) fn size_of_other_blocks(s: &State) -> Vec<Change> {
    let other = |file: &Record| {
        let longer = (file.size + 255) / 256 * 256 + 1;
        [longer, u32::MAX].map(|size| Word::table(file.word(1), size))
    };
    each(s.partial().iter().flat_map(other))
}

pub(super) fn time_not_given(s: &State) -> Vec<Change> {
    let mut changes = Vec::new();
    if let Some(next) = s.last_time.checked_add(1) {
        changes = each(
            s.complete()
                .iter()
                .map(|file| Word::table(file.word(3), next)),
        );
    }
    if let Some(latest) = s.complete().iter().map(|file| file.time).max() {
        changes.push(vec![Word::state(5, u64::from(latest) - 1)]);
    }
    changes
}

pub(super) fn complete_with_fewer(s: &State) -> Vec<Change> {
    let mut changes = each(
        s.complete()
            .iter()
            .map(|file| Word::table(file.word(2), file.size - 1)),
    );
    let short = s.with(|file| file.is_partial() && file.received < file.size);
    let given: Vec<u32> = s.complete().iter().map(|file| file.time).collect();
    // a time that was given and that no other file has
    if let Some(time) = (1..=s.last_time)
        .take(300)
        .find(|time| !given.contains(time))
    {
        changes.extend(each(
            short.iter().map(|file| Word::table(file.word(3), time)),
        ));
    }
    changes
}

pub(super) fn number_twice(s: &State) -> Vec<Change> {
    let files = s.live();
    let pairs = files.iter().zip(files.iter().skip(1));
    each(pairs.flat_map(|(one, other)| {
        [
            Word::table(one.word(0), other.number),
            Word::table(other.word(0), one.number),
        ]
    }))
}

pub(super) fn time_twice(s: &State) -> Vec<Change> {
    let files = s.complete();
    let pairs = files.iter().zip(files.iter().skip(1));
    each(pairs.flat_map(|(one, other)| {
        [
            Word::table(one.word(3), other.time),
            Word::table(other.word(3), one.time),
        ]
    }))
}
