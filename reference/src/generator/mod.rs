//! Random scripts for the script program. The author runs this program's own
//! server while writing, so that most commands mean something to it.

mod author;
mod class;
mod equations;
pub mod paper;
mod pieces;
mod plans;
mod sheets;
mod themes;

use std::collections::BTreeMap;

use crate::random::Random;
use author::Author;
use themes::{Theme, MIXED, THEMES};

pub use class::class_story;
pub use equations::{equation, relation};
pub use pieces::{destination, offset, stray};
pub use plans::{plan, sound, wide, Plan, Wishes};
pub use sheets::{answer_sheet, sheet_script};

/// A script and what its author meant.
#[derive(Clone, Debug)]
pub struct Story {
    pub theme: &'static str,
    pub lines: Vec<Vec<u8>>,
    /// Whether the last line has its newline.
    pub ends_whole: bool,
    /// What was meant to be uploaded under each file number.
    pub plans: BTreeMap<u32, Plan>,
}

impl Story {
    pub fn text(&self) -> Vec<u8> {
        let mut text = self.lines.join(&b'\n');
        if self.ends_whole && !self.lines.is_empty() {
            text.push(b'\n');
        }
        text
    }
}

/// The seed of one script among those that belong to one seed.
pub fn seed_of(seed: u64, index: u64) -> u64 {
    Random::new(seed).word().wrapping_add(index)
}

/// The script of that seed.
pub fn story(seed: u64) -> Story {
    let mut random = Random::new(seed);
    let theme = *random.pick(&THEMES);
    let mut author = Author::new(random, theme);
    author.begin();
    author.steps();
    author.end();
    author.story()
}

/// A short script of uploads on one or two links that are not lost, with no
/// line that can't be read.
pub fn uploads(seed: u64) -> Story {
    let mut random = Random::new(seed);
    let theme = Theme {
        name: "uploads",
        sessions: random.between(1, 2),
        uplink: 100,
        stray: 0,
        more: 40,
        cut: 20,
        lost: 0,
        odd: 0,
        wishes: Wishes {
            damaged: 15,
            long: 0,
            body: 40,
        },
        ..MIXED
    };
    let mut author = Author::new(random, theme);
    author.begin();
    for _ in 0..8 {
        author.step();
    }
    author.story()
}
