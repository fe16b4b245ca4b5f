//! Directories: DIR_SHORT_CMD and DIR_LONG_CMD, for one file or for the next
//! files of the selection, their headers sent as DATA and DATA_END.

use super::{send, Directory, Downlink, Listed, Reply, Server, Session};
use crate::header;
use crate::packet::{number, Packet, Type, SERVER_MOST};
use crate::refusal::{ILL_FORMED_COMMAND, NO_SUCH_FILE, PARTIAL_FILE, SELECTION_EMPTY};

/// "A maximum of 10 file headers will be transmitted for each DIR command."
pub const ENTRIES: usize = 10;

impl Server {
    pub(super) fn hear_directory(&mut self, index: usize, long: bool, information: &[u8]) -> Reply {
        if self.session(index).downlink != Downlink::Idle {
            return Reply::Close;
        }
        match self.listed(index, information) {
            Ok(listed) => {
                let session = self.session_mut(index);
                // The place that downloads move, too.
                if let Listed::Selected { end, .. } = listed {
                    session.selection.position = end;
                }
                let directory = Directory { long, listed };
                session.downlink = Downlink::Listing { directory, sent: 0 };
                Reply::Quiet
            }
            Err(refusal) => send(Type::DlErrorResp, &[refusal]),
        }
    }

    /// The files that a directory is to send.
    fn listed(&self, index: usize, information: &[u8]) -> Result<Listed, u8> {
        if information.len() != 4 {
            return Err(ILL_FORMED_COMMAND);
        }
        let file_number = number(information);
        if file_number != 0 {
            let place = self.store.find(file_number).ok_or(NO_SUCH_FILE)?;
            return match self.store.file(place).is_complete() {
                true => Ok(Listed::One { place }),
                false => Err(PARTIAL_FILE),
            };
        }
        let selection = &self.session(index).selection;
        let first = selection.position;
        let end = selection.numbers.len().min(first + ENTRIES);
        if first == end {
            return Err(SELECTION_EMPTY);
        }
        Ok(Listed::Selected { first, end })
    }

    /// The places of a session's listed files, in the order in which they are sent.
    pub fn listed_places(&self, session: &Session, listed: Listed) -> Vec<usize> {
        let (first, end) = match listed {
            Listed::One { place } => return vec![place],
            Listed::Selected { first, end } => (first, end),
        };
        let numbers = &session.selection.numbers[first..end];
        let place = |number: &u32| self.store.find(*number).expect("a selected file");
        numbers.iter().map(place).collect()
    }

    /// All bytes that a session's directory sends: its entries, one behind the other.
    pub fn entries(&self, session: &Session, directory: Directory) -> Vec<u8> {
        let places = self.listed_places(session, directory.listed);
        let entry = |place: usize| {
            let file = self.store.contents(place);
            match directory.long {
                true => header::long_entry(&file),
                false => header::short_entry(&file),
            }
        };
        places.into_iter().flat_map(entry).collect()
    }

    /// The next DATA of a directory, as full as can be, or its DATA_END, which
    /// ends it for good.
    pub(super) fn list_on(&mut self, index: usize, directory: Directory, sent: u32) -> Packet {
        let entries = self.entries(self.session(index), directory);
        let from = sent as usize;
        let to = entries.len().min(from + SERVER_MOST);
        if from == to {
            return self.end_directory(index);
        }
        let sent = to as u32;
        self.session_mut(index).downlink = Downlink::Listing { directory, sent };
        Packet::new(Type::Data, &entries[from..to])
    }

    /// The DATA_END of a directory; no word of the client is awaited.
    pub(super) fn end_directory(&mut self, index: usize) -> Packet {
        self.session_mut(index).downlink = Downlink::Idle;
        Packet::new(Type::DataEnd, &[])
    }
}
