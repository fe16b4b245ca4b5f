//! What the scripts of each kind dwell on.

use super::plans::Wishes;

/// What the scripts of one kind dwell on. Chances are of 100.
#[derive(Clone, Copy, Debug)]
pub(super) struct Theme {
    pub(super) name: &'static str,
    pub(super) prelude: Prelude,
    pub(super) least_steps: usize,
    pub(super) most_steps: usize,
    pub(super) sessions: usize,
    /// The chance of an uplink packet rather than a downlink one.
    pub(super) uplink: usize,
    /// The chance of a packet that is out of place.
    pub(super) stray: usize,
    /// The chance of bringing the session into some state for a stray packet.
    pub(super) moment: usize,
    /// The chance of more packets in the same line.
    pub(super) more: usize,
    /// The chance that a line is cut.
    pub(super) cut: usize,
    /// The chance that the link is dropped.
    pub(super) lost: usize,
    /// The chance of a call on a session that refuses it.
    pub(super) odd: usize,
    pub(super) clock: usize,
    /// The chance of a directory rather than a download.
    pub(super) directory: usize,
    /// The chance of a file with a large header.
    pub(super) wide: usize,
    pub(super) wishes: Wishes,
}

/// What stands in the store before the steps begin.
#[derive(Clone, Copy, Debug, PartialEq)]
pub(super) enum Prelude {
    Nothing,
    /// Some complete files.
    Files(usize),
    /// Partials in nearly all places.
    Partials,
    /// A clock near its end.
    LateClock,
}

pub(super) const MIXED: Theme = Theme {
    name: "mixed",
    prelude: Prelude::Nothing,
    least_steps: 20,
    most_steps: 70,
    sessions: 4,
    uplink: 60,
    stray: 2,
    moment: 0,
    more: 25,
    cut: 25,
    lost: 4,
    odd: 2,
    clock: 8,
    directory: 30,
    wide: 1,
    wishes: Wishes {
        damaged: 20,
        long: 4,
        body: 300,
    },
};

pub(super) const THEMES: [Theme; 14] = [
    MIXED,
    Theme {
        name: "damaged files",
        sessions: 1,
        uplink: 95,
        more: 70,
        lost: 1,
        wishes: Wishes {
            damaged: 85,
            long: 0,
            body: 60,
        },
        ..MIXED
    },
    Theme {
        name: "pages",
        prelude: Prelude::Files(26),
        sessions: 2,
        uplink: 30,
        stray: 1,
        clock: 25,
        wishes: Wishes {
            damaged: 0,
            long: 0,
            body: 20,
        },
        ..MIXED
    },
    Theme {
        name: "downloads",
        prelude: Prelude::Files(3),
        sessions: 2,
        uplink: 8,
        more: 45,
        wishes: Wishes {
            damaged: 0,
            long: 0,
            body: 700,
        },
        ..MIXED
    },
    Theme {
        name: "equations",
        prelude: Prelude::Files(6),
        sessions: 1,
        uplink: 5,
        stray: 0,
        wishes: Wishes {
            damaged: 0,
            long: 0,
            body: 40,
        },
        ..MIXED
    },
    Theme {
        name: "interrupted uploads",
        uplink: 92,
        cut: 60,
        lost: 14,
        stray: 1,
        wishes: Wishes {
            damaged: 12,
            long: 0,
            body: 600,
        },
        ..MIXED
    },
    Theme {
        name: "one byte at a time",
        least_steps: 150,
        most_steps: 300,
        sessions: 2,
        uplink: 70,
        cut: 100,
        lost: 1,
        clock: 3,
        wishes: Wishes {
            damaged: 20,
            long: 0,
            body: 30,
        },
        ..MIXED
    },
    Theme {
        name: "stray packets",
        prelude: Prelude::Files(2),
        sessions: 2,
        stray: 25,
        moment: 50,
        directory: 50,
        ..MIXED
    },
    Theme {
        name: "full store",
        uplink: 85,
        lost: 20,
        wishes: Wishes {
            damaged: 5,
            long: 60,
            body: 900,
        },
        ..MIXED
    },
    Theme {
        name: "full places",
        prelude: Prelude::Partials,
        least_steps: 10,
        most_steps: 30,
        sessions: 2,
        uplink: 80,
        lost: 15,
        wishes: Wishes {
            damaged: 30,
            long: 0,
            body: 20,
        },
        ..MIXED
    },
    Theme {
        name: "late clock",
        prelude: Prelude::LateClock,
        sessions: 2,
        uplink: 75,
        clock: 30,
        wishes: Wishes {
            damaged: 15,
            long: 0,
            body: 30,
        },
        ..MIXED
    },
    Theme {
        name: "directories",
        prelude: Prelude::Files(24),
        sessions: 2,
        uplink: 12,
        more: 45,
        directory: 75,
        wishes: Wishes {
            damaged: 5,
            long: 0,
            body: 60,
        },
        ..MIXED
    },
    Theme {
        name: "large headers",
        prelude: Prelude::Files(6),
        sessions: 2,
        uplink: 25,
        more: 40,
        directory: 65,
        wide: 70,
        wishes: Wishes {
            damaged: 0,
            long: 0,
            body: 40,
        },
        ..MIXED
    },
    Theme {
        name: "both ways",
        prelude: Prelude::Files(4),
        sessions: 3,
        uplink: 50,
        more: 75,
        cut: 10,
        wishes: Wishes {
            damaged: 10,
            long: 0,
            body: 500,
        },
        ..MIXED
    },
];
