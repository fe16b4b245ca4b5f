//! "If I ask for new files page by page, how do I know that none was missed?"
use reference::random::Random;
use server::pages::{run, Read};

/// MAXSEL 1 to 50, stores of up to 256 files: every matching file is given once, oldest first, to four clients that read at once.
#[test]
fn pages_give_every_file_once_oldest_first() {
    let mut all = Read::default();
    for maxsel in 1..=50 {
        let mut random = Random::new(maxsel as u64);
        // some stores are full before the first page, some pages are exactly full
        let files = match maxsel % 5 {
            0 => 256,
            1 => 2 * maxsel + 1,
            _ => random.between(4, 100),
        };
        let first = match maxsel % 3 {
            0 => files - 3,
            1 => maxsel.min(files / 2),
            _ => random.below(files / 2),
        };
        let read = run(maxsel, files, first, random);
        all.pages += read.pages;
        all.files += read.files;
        all.meanwhile += read.meanwhile;
        all.lost += read.lost;
    }
    assert!(500 < all.pages && 5_000 < all.files, "{all:?}");
    assert!(500 < all.meanwhile && 100 < all.lost, "{all:?}");
}

/// The most files and the shortest pages.
#[test]
fn pages_of_one_file() {
    let read = run(1, 256, 200, Random::new(7));
    assert!(256 < read.pages, "{read:?}");
}

#[test]
fn pages_of_fifty_files() {
    let read = run(50, 256, 250, Random::new(8));
    assert!(12 <= read.pages, "{read:?}");
}
