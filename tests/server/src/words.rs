//! The words of the memory that is lent, each by its part and its index, so that tests can change any of them.
use crate::proved::Proved;

#[derive(Clone, Copy, Debug, PartialEq, Eq)]
pub enum Part {
    State,
    Map,
    Owner,
    Table,
    Selected,
    Held,
}

impl Part {
    /// All but the disk: any byte of a file is a byte of a file.
    pub const ALL: [Part; 6] = [
        Part::State,
        Part::Map,
        Part::Owner,
        Part::Table,
        Part::Selected,
        Part::Held,
    ];

    pub fn bits(self) -> u32 {
        match self {
            Part::State | Part::Map => 64,
            Part::Table | Part::Selected => 32,
            Part::Owner => 16,
            Part::Held => 8,
        }
    }

    pub fn length(self, lent: &Proved) -> usize {
        match self {
            Part::State => lent.state.len(),
            Part::Map => lent.map.len(),
            Part::Owner => lent.owner.len(),
            Part::Table => lent.table.len(),
            Part::Selected => lent.selected.len(),
            Part::Held => lent.held.len(),
        }
    }

    pub fn get(self, lent: &Proved, at: usize) -> u64 {
        match self {
            Part::State => lent.state[at],
            Part::Map => lent.map[at],
            Part::Owner => lent.owner[at].into(),
            Part::Table => lent.table[at].into(),
            Part::Selected => lent.selected[at].into(),
            Part::Held => lent.held[at].into(),
        }
    }

    /// The value has no more bits than the part's words.
    pub fn put(self, lent: &mut Proved, at: usize, value: u64) {
        match self {
            Part::State => lent.state[at] = value,
            Part::Map => lent.map[at] = value,
            Part::Owner => lent.owner[at] = value as u16,
            Part::Table => lent.table[at] = value as u32,
            Part::Selected => lent.selected[at] = value as u32,
            Part::Held => lent.held[at] = value as u8,
        }
    }
}

/// Another value for one word.
#[derive(Clone, Copy, Debug, PartialEq, Eq)]
pub struct Word {
    pub part: Part,
    pub at: usize,
    pub value: u64,
}

impl Word {
    fn of(part: Part, at: usize, value: u64) -> Word {
        Word { part, at, value }
    }

    pub fn state(at: usize, value: u64) -> Word {
        Word::of(Part::State, at, value)
    }

    pub fn map(at: usize, value: u64) -> Word {
        Word::of(Part::Map, at, value)
    }

    pub fn owner(at: usize, value: u16) -> Word {
        Word::of(Part::Owner, at, value.into())
    }

    pub fn table(at: usize, value: u32) -> Word {
        Word::of(Part::Table, at, value.into())
    }

    pub fn selected(at: usize, value: u32) -> Word {
        Word::of(Part::Selected, at, value.into())
    }

    pub fn held(at: usize, value: u8) -> Word {
        Word::of(Part::Held, at, value.into())
    }

    pub fn apply(self, lent: &mut Proved) {
        self.part.put(lent, self.at, self.value);
    }
}
