//! The facts of refusal 35 on this program's own state: "demand 3's facts on
//! blocks, numbers or upload times are broken, or a length, offset or name
//! points at what the store lacks", as docs/DECISIONS.md lists them (D29, D36,
//! D38, D57, D58, D59), and what calls keep besides. The calls do not use them:
//! the state is not handed in, so nothing can break it. Tests do, and so do
//! measurements beside a server that makes this test at each call.

use crate::packet::{announced, HEAD, SERVER_MOST};
use crate::server::{Downlink, Listed, Server, Session, Uplink, ENTRIES};
use crate::store::{blocks_needed, File, Store, BLOCK};

/// The words of the broken fact that was found first.
pub type Sound = Result<(), &'static str>;

fn fact(words: &'static str, holds: bool) -> Sound {
    match holds {
        true => Ok(()),
        false => Err(words),
    }
}

/// Whether each number stands once.
fn each_once(mut numbers: Vec<u32>) -> bool {
    numbers.sort_unstable();
    numbers.windows(2).all(|two| two[0] < two[1])
}

impl Server {
    pub fn sound(&self) -> Sound {
        let (sizes, store) = (self.sizes, &self.store);
        fact("the sizes are in the table", sizes.are_in_the_table())?;
        fact("there are so many blocks", store.free.len() == sizes.blocks)?;
        let bytes = sizes.blocks * BLOCK;
        fact("each block has its bytes", store.disk.len() == bytes)?;
        let places = store.places.len();
        fact("there are so many file places", places == sizes.files)?;
        let sessions = self.sessions.len();
        fact("there are so many sessions", sessions == sizes.sessions)?;
        store.blocks_sound()?;
        store.files_sound()?;
        self.sessions_sound()
    }

    fn sessions_sound(&self) -> Sound {
        let complete = self.store.complete_numbers();
        for session in self.sessions.iter().flatten() {
            self.uplink_sound(session)?;
            self.downlink_sound(session)?;
            packet_sound(session)?;
            self.selection_sound(session, &complete)?;
            self.directory_sound(session)?;
        }
        Ok(())
    }

    /// What calls keep of the sessions and 35 does not ask.
    pub fn kept(&self) -> Sound {
        let mut uploads: Vec<usize> = Vec::new();
        for session in self.sessions.iter().flatten() {
            place_kept(session)?;
            if let Uplink::Receiving {
                place,
                offset,
                received,
            } = session.uplink
            {
                let file = self.named(place).ok_or("an upload names a file")?;
                let bytes = u64::from(offset) + u64::from(received);
                let same = bytes == u64::from(file.received);
                fact("an upload's bytes are the file's", same)?;
                let other = !uploads.contains(&place);
                fact("two sessions do not upload one file", other)?;
                uploads.push(place);
            }
        }
        Ok(())
    }

    /// The file that a session names by its place.
    fn named(&self, place: usize) -> Option<&File> {
        self.store.places.get(place)?.as_ref()
    }

    fn uplink_sound(&self, session: &Session) -> Sound {
        let (place, offset, received) = match session.uplink {
            Uplink::Receiving {
                place,
                offset,
                received,
            } => (place, offset, received),
            _ => return Ok(()),
        };
        let file = self.named(place).ok_or("an upload names a file")?;
        fact("an upload's file is partial", !file.is_complete())?;
        let bytes = u64::from(offset) + u64::from(received);
        let within = bytes <= u64::from(file.received);
        fact("an upload's bytes are within the file's", within)
    }

    fn downlink_sound(&self, session: &Session) -> Sound {
        let complete = |place| self.named(place).filter(|file| file.is_complete());
        match session.downlink {
            Downlink::Idle => Ok(()),
            Downlink::Sending {
                place,
                offset,
                sent,
            } => {
                let file = complete(place).ok_or("a file being sent is complete")?;
                let end = u64::from(offset) + u64::from(sent);
                let within = end <= u64::from(file.length);
                fact("the bytes sent are within the file", within)
            }
            Downlink::Ended { place } => {
                let there = complete(place).is_some();
                fact("a file that was sent is complete", there)
            }
            Downlink::Aborting { place } => {
                let there = complete(place).is_some();
                fact("a file being aborted is complete", there)
            }
            // Looked at when the selection is known to be sound.
            Downlink::Listing { .. } => Ok(()),
        }
    }

    /// What a directory names is there: a complete file, or selected files.
    fn directory_sound(&self, session: &Session) -> Sound {
        let (directory, sent) = match session.downlink {
            Downlink::Listing { directory, sent } => (directory, sent),
            _ => return Ok(()),
        };
        match directory.listed {
            Listed::One { place } => {
                let complete = matches!(self.named(place), Some(file) if file.is_complete());
                fact("a listed file is complete", complete)?;
            }
            Listed::Selected { first, end } => {
                let within = first <= end && end <= session.selection.numbers.len();
                fact("listed files are selected", within)?;
                fact("at most ten files are listed", end - first <= ENTRIES)?;
            }
        }
        let within = sent as usize <= self.entries(session, directory).len();
        fact("the bytes listed are within the entries", within)
    }

    fn selection_sound(&self, session: &Session, complete: &[u32]) -> Sound {
        let selection = &session.selection;
        let count = selection.numbers.len();
        let few = count <= self.sizes.maxsel;
        fact("at most MAXSEL files are selected", few)?;
        let among = selection.position <= count;
        fact("the next selected file is one of them", among)?;
        let is_complete = |number: &u32| complete.binary_search(number).is_ok();
        let all = selection.numbers.iter().all(is_complete);
        fact("a selected file is complete", all)
    }
}

/// While selected files are listed, the place in the selection is behind them.
fn place_kept(session: &Session) -> Sound {
    let listed = match session.downlink {
        Downlink::Listing { directory, .. } => directory.listed,
        _ => return Ok(()),
    };
    let behind = match listed {
        Listed::One { .. } => true,
        Listed::Selected { end, .. } => end == session.selection.position,
    };
    fact("the place is behind the listed files", behind)
}

/// An unfinished packet is short of its end.
fn packet_sound(session: &Session) -> Sound {
    let held = session.frame.held();
    let (first, second) = match held {
        [first, second, ..] => (first, second),
        _ => return Ok(()),
    };
    let length = announced(*first, *second).length;
    fact(
        "a packet begun announces at most 256",
        length <= SERVER_MOST,
    )?;
    fact(
        "a packet begun is not at its end",
        held.len() < HEAD + length,
    )
}

impl Store {
    /// Each block is free or belongs to one file.
    fn blocks_sound(&self) -> Sound {
        let mut owned = vec![false; self.free.len()];
        for file in self.places.iter().flatten() {
            let rising = file.blocks.windows(2).all(|two| two[0] < two[1]);
            fact("a file's blocks rise", rising)?;
            for &block in &file.blocks {
                let seen = owned.get_mut(block).ok_or("a file's block is one")?;
                fact("a block belongs to one file", !*seen)?;
                *seen = true;
            }
        }
        let apart = |(free, owned): (&bool, &bool)| free != owned;
        let either = self.free.iter().zip(&owned).all(apart);
        fact("a block is free or belongs to a file", either)
    }

    fn files_sound(&self) -> Sound {
        let (mut numbers, mut times) = (Vec::new(), Vec::new());
        for file in self.places.iter().flatten() {
            let blocks = file.blocks.len() == blocks_needed(file.length);
            fact("a file holds the blocks of its length", blocks)?;
            let given = (1..=self.last_number).contains(&file.number);
            fact("a file's number was given", given)?;
            let within = file.received <= file.length;
            fact("no more bytes than announced", within)?;
            numbers.push(file.number);
            if let Some(time) = file.upload_time {
                let given = (1..=self.last_time).contains(&time);
                fact("a file's upload time was given", given)?;
                let whole = file.received == file.length;
                fact("a complete file has all its bytes", whole)?;
                times.push(time);
            }
        }
        fact("no two files have one number", each_once(numbers))?;
        fact("no two files have one upload time", each_once(times))
    }

    /// The numbers of the complete files, rising.
    fn complete_numbers(&self) -> Vec<u32> {
        let files = self.places.iter().flatten();
        let complete = files.filter(|file| file.is_complete());
        let mut numbers: Vec<u32> = complete.map(|file| file.number).collect();
        numbers.sort_unstable();
        numbers
    }
}
