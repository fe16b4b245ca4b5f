//! The proved server of `bindings`, made with the second program's sizes.
use bindings::server;
use reference::server::Sizes;

pub use bindings::server::{state_words, Answer, Server as Proved};

fn proved_sizes(sizes: Sizes) -> server::Sizes {
    server::Sizes {
        blocks: sizes.blocks,
        files: sizes.files,
        sessions: sizes.sessions,
        most: sizes.maxsel,
    }
}

/// The lengths that the slices need, into `need`: state, disk, map, owner, table, selected, held.
pub fn memory(sizes: Sizes, need: &mut [usize]) -> u8 {
    server::memory(proved_sizes(sizes), need)
}

/// Makes a server in the memory that is lent.
pub fn make(proved: &mut Proved, sizes: Sizes) -> u8 {
    proved.make(proved_sizes(sizes))
}

/// Slices as long as these sizes need and so much longer, with arbitrary contents.
pub fn lent(sizes: Sizes, longer: usize) -> Proved {
    let mut need = [0; 7];
    assert_eq!(memory(sizes, &mut need), 0, "{sizes:?}");
    let [state, disk, map, owner, table, selected, held] = need.map(|n| n + longer);
    Proved {
        state: vec![0x1111_2222_3333_4444; state],
        disk: (0..disk).map(|i| (i * 7 + i / 256) as u8).collect(),
        map: vec![0x5555_5555_5555_5555; map],
        owner: vec![0x7777; owner],
        table: vec![0x6666_6666; table],
        selected: vec![0x3333_3333; selected],
        held: vec![0x99; held],
        out: vec![0; 258],
        counts: vec![0; 2],
    }
}

/// A server with these sizes over an empty store.
pub fn empty(sizes: Sizes, longer: usize) -> Proved {
    let mut proved = lent(sizes, longer);
    assert_eq!(make(&mut proved, sizes), 0, "{sizes:?}");
    proved
}
