//! What the packets of a link do, and what a request brings.

use crate::equation::Equation;
use crate::header::{short_entry, SHORT_ENTRY};
use crate::packet::{self, number, seal, write, HEAD, MOST, OUTPUT};
use crate::refusal::*;
use crate::store::{Cursor, Store};

/// The most files of any selection.
pub const MAXSEL: usize = 50;
/// The most entries of one directory of number 0.
const ENTRIES: usize = 10;

pub enum Uplink {
    Idle,
    Receiving {
        place: usize,
    },
    /// The upload was refused before its DATA_END.
    Ignoring,
}

enum Downlink {
    Idle,
    /// A file is going out: where the bytes left stand, and how many they are.
    Sending {
        place: usize,
        cursor: Cursor,
        left: usize,
    },
    /// DATA_END went out; the client's word is awaited.
    Ended {
        place: usize,
    },
    /// DATA_END went out early; DL_ABORTED_RESP is due.
    Aborting,
    Listing(Listing),
}

/// A directory that is going out.
struct Listing {
    long: bool,
    /// The file whose entry is being sent; where the bytes left of it stand, and how many they are.
    place: usize,
    cursor: Cursor,
    left: usize,
    /// The files after it: those of the selection from one index up to, not including, another.
    next: usize,
    end: usize,
}

/// The places of the selected files.
pub struct Selection {
    places: [u16; MAXSEL],
    count: usize,
    /// How many of them were taken.
    pub taken: usize,
}

pub struct Link {
    pub uplink: Uplink,
    downlink: Downlink,
    pub selection: Selection,
}

/// What a whole packet leads to.
pub enum Reply {
    Quiet,
    /// The length of the packet in the output.
    Send(usize),
    Close,
}

/// A whole packet that was heard on a link.
pub struct Heard<'a> {
    pub link: &'a mut Link,
    pub store: &'a mut Store,
    pub information: &'a [u8],
    pub output: &'a mut [u8],
}

impl Heard<'_> {
    fn send(&mut self, kind: u8, information: &[u8]) -> Reply {
        Reply::Send(write(self.output, kind, information))
    }

    // ---- the uplink

    pub fn upload(&mut self) -> Reply {
        if !matches!(self.link.uplink, Uplink::Idle) {
            return Reply::Close;
        }
        let place = match self.upload_place() {
            Ok(place) => place,
            Err(refusal) => return self.send(packet::UL_ERROR_RESP, &[refusal]),
        };
        let file = &mut self.store.files[place];
        file.uploading = true;
        self.link.uplink = Uplink::Receiving { place };
        self.output[HEAD..HEAD + 4].copy_from_slice(&file.number.to_le_bytes());
        self.output[HEAD + 4..HEAD + 8].copy_from_slice(&file.received.to_le_bytes());
        Reply::Send(seal(self.output, packet::UL_GO_RESP, 8))
    }

    /// The place of the file to receive, begun if it is a new one.
    fn upload_place(&mut self) -> Result<usize, u8> {
        if self.information.len() != 8 {
            return Err(ILL_FORMED);
        }
        let length = number(&self.information[4..]);
        let place = match number(self.information) {
            0 => return self.store.begin(length),
            given => self.store.find(given).ok_or(NO_SUCH_FILE)?,
        };
        let file = &self.store.files[place];
        if file.complete {
            return Err(FILE_COMPLETE);
        }
        if file.length != length || file.uploading {
            return Err(BAD_CONTINUE);
        }
        Ok(place)
    }

    pub fn data(&mut self) -> Reply {
        match self.link.uplink {
            Uplink::Idle => Reply::Close,
            Uplink::Ignoring => Reply::Quiet,
            Uplink::Receiving { place } if self.store.append(place, self.information) => {
                Reply::Quiet
            }
            Uplink::Receiving { place } => {
                self.store.discard(place);
                self.link.uplink = Uplink::Ignoring;
                self.send(packet::UL_NAK_RESP, &[BODY])
            }
        }
    }

    pub fn data_end(&mut self, clock: u32) -> Reply {
        if matches!(self.link.uplink, Uplink::Idle) || !self.information.is_empty() {
            return Reply::Close;
        }
        let place = match std::mem::replace(&mut self.link.uplink, Uplink::Idle) {
            Uplink::Receiving { place } => place,
            _ => return Reply::Quiet,
        };
        match self.store.complete(place, clock) {
            Ok(()) => self.send(packet::UL_ACK_RESP, &[]),
            Err(refusal) => {
                self.store.discard(place);
                self.send(packet::UL_NAK_RESP, &[refusal])
            }
        }
    }

    // ---- the downlink

    /// A command begins what it asks for, or is refused; where something is going out it is unexpected.
    fn begin(&mut self, ask: impl FnOnce(&mut Self) -> Result<Downlink, u8>) -> Reply {
        if !matches!(self.link.downlink, Downlink::Idle) {
            return Reply::Close;
        }
        match ask(self) {
            Ok(downlink) => {
                self.link.downlink = downlink;
                Reply::Quiet
            }
            Err(refusal) => self.send(packet::DL_ERROR_RESP, &[refusal]),
        }
    }

    pub fn select(&mut self, maxsel: usize) -> Reply {
        if !matches!(self.link.downlink, Downlink::Idle) {
            return Reply::Close;
        }
        let equation = match Equation::parse(self.information) {
            Some(equation) => equation,
            None => return self.send(packet::DL_ERROR_RESP, &[BAD_EQUATION]),
        };
        let store = &*self.store;
        let holds = |place: &&u16| equation.holds(store, &store.files[usize::from(**place)]);
        let selection = &mut self.link.selection;
        selection.count = 0;
        selection.taken = 0;
        for place in store.complete.iter().filter(holds).take(maxsel) {
            selection.places[selection.count] = *place;
            selection.count += 1;
        }
        let count = selection.count as u8;
        self.send(packet::SELECT_RESP, &[count, 0])
    }

    pub fn download(&mut self) -> Reply {
        self.begin(|heard| heard.sending())
    }

    fn sending(&mut self) -> Result<Downlink, u8> {
        if self.information.len() != 9 {
            return Err(ILL_FORMED);
        }
        let given = number(self.information);
        let place = self.complete(given)?;
        let file = &self.store.files[place];
        let offset = number(&self.information[4..]);
        if offset > file.length {
            return Err(BAD_CONTINUE);
        }
        if u16::from(self.information[8]) > file.destinations {
            return Err(NO_SUCH_DESTINATION);
        }
        if given == 0 {
            self.link.selection.taken += 1;
        }
        let mut cursor = file.start();
        self.store.skip(&mut cursor, offset as usize);
        let left = (file.length - offset) as usize;
        Ok(Downlink::Sending {
            place,
            cursor,
            left,
        })
    }

    /// The place of the complete file with that number, or for 0 of the next selected one.
    fn complete(&self, given: u32) -> Result<usize, u8> {
        if given == 0 {
            let selection = &self.link.selection;
            let next = selection.places[..selection.count].get(selection.taken);
            return next.copied().map(usize::from).ok_or(SELECTION_EMPTY);
        }
        let place = self.store.find(given).ok_or(NO_SUCH_FILE)?;
        match self.store.files[place].complete {
            true => Ok(place),
            false => Err(PARTIAL_FILE),
        }
    }

    pub fn directory(&mut self, long: bool) -> Reply {
        self.begin(|heard| heard.listing(long))
    }

    fn listing(&mut self, long: bool) -> Result<Downlink, u8> {
        if self.information.len() != 4 {
            return Err(ILL_FORMED);
        }
        let given = number(self.information);
        let place = self.complete(given)?;
        let (mut next, mut end) = (0, 0);
        if given == 0 {
            let selection = &mut self.link.selection;
            next = selection.taken + 1;
            end = selection.count.min(selection.taken + ENTRIES);
            selection.taken = end;
        }
        let (cursor, left) = entry(self.store, long, place);
        let listing = Listing {
            long,
            place,
            cursor,
            left,
            next,
            end,
        };
        Ok(Downlink::Listing(listing))
    }

    pub fn ack(&mut self) -> Reply {
        let most = match self.link.downlink {
            Downlink::Ended { place } => self.store.files[place].destinations,
            _ => return Reply::Close,
        };
        self.link.downlink = Downlink::Idle;
        match *self.information {
            [number] if u16::from(number) <= most => self.send(packet::DL_COMPLETED_RESP, &[]),
            _ => self.send(packet::DL_ABORTED_RESP, &[]),
        }
    }

    pub fn nak(&mut self) -> Reply {
        if !self.information.is_empty() {
            return Reply::Close;
        }
        let (downlink, kind) = match self.link.downlink {
            Downlink::Idle => return Reply::Quiet,
            Downlink::Aborting => return Reply::Close,
            Downlink::Sending { .. } => (Downlink::Aborting, packet::DATA_END),
            Downlink::Ended { .. } => (Downlink::Idle, packet::DL_ABORTED_RESP),
            Downlink::Listing(_) => (Downlink::Idle, packet::DATA_END),
        };
        self.link.downlink = downlink;
        self.send(kind, &[])
    }
}

impl Link {
    pub fn new() -> Link {
        Link {
            uplink: Uplink::Idle,
            downlink: Downlink::Idle,
            selection: Selection {
                places: [0; MAXSEL],
                count: 0,
                taken: 0,
            },
        }
    }

    /// Writes the packet that is due, if there is one, and answers its length.
    pub fn due(&mut self, store: &Store, output: &mut [u8]) -> Option<usize> {
        let (count, after, kind) = match &mut self.downlink {
            Downlink::Idle | Downlink::Ended { .. } => return None,
            Downlink::Aborting => (0, Downlink::Idle, packet::DL_ABORTED_RESP),
            Downlink::Sending {
                place,
                cursor,
                left,
            } => {
                let count = MOST.min(*left);
                store.read(cursor, &mut output[HEAD..HEAD + count]);
                *left -= count;
                (count, Downlink::Ended { place: *place }, packet::DATA_END)
            }
            Downlink::Listing(listing) => {
                let count = listing.fill(store, &self.selection, &mut output[HEAD..OUTPUT]);
                (count, Downlink::Idle, packet::DATA_END)
            }
        };
        if count > 0 {
            return Some(seal(output, packet::DATA, count));
        }
        self.downlink = after;
        Some(seal(output, kind, 0))
    }
}

/// Where a file's entry in a directory begins, and its length.
fn entry(store: &Store, long: bool, place: usize) -> (Cursor, usize) {
    let file = &store.files[place];
    let length = match long {
        true => usize::from(file.header_length),
        false => SHORT_ENTRY,
    };
    (file.start(), length)
}

impl Listing {
    /// Writes the next bytes of the entries, as many as there is room for, and answers how many.
    fn fill(&mut self, store: &Store, selection: &Selection, room: &mut [u8]) -> usize {
        let mut done = 0;
        while done < room.len() {
            if self.left == 0 && self.next == self.end {
                break;
            }
            if self.left == 0 {
                self.place = usize::from(selection.places[self.next]);
                self.next += 1;
                let (cursor, left) = entry(store, self.long, self.place);
                self.cursor = cursor;
                self.left = left;
            }
            let count = self.left.min(room.len() - done);
            let to = &mut room[done..done + count];
            if self.long {
                store.read(&mut self.cursor, to);
            } else {
                let from = SHORT_ENTRY - self.left;
                let short = short_entry(store, &store.files[self.place]);
                to.copy_from_slice(&short[from..from + count]);
            }
            self.left -= count;
            done += count;
        }
        done
    }
}
