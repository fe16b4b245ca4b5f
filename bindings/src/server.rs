//! The proved server. Its memory stands in one struct, so that no pointer is given with another's length; every call is safe.
use crate::embed::*;

/// How much a server holds: 1 to 4096 blocks of 256 bytes, 1 to 256 files, 1 to 4 sessions, and 1 to 50 files in a selection (MAXSEL).
#[derive(Clone, Copy, Debug, PartialEq, Eq)]
pub struct Sizes {
    pub blocks: usize,
    pub files: usize,
    pub sessions: usize,
    pub most: usize,
}

/// What a call answers, and what a modem is to do: docs/EMBEDDING.md.
#[derive(Clone, Debug, PartialEq, Eq)]
pub enum Answer {
    /// So many bytes were taken and nothing is sent.
    Quiet(usize),
    /// So many bytes were taken, and this packet is in the output.
    Sent(usize, Vec<u8>),
    /// The link was closed after so many bytes.
    Closed(usize),
    /// The number of a local refusal, 32 to 35. Nothing has changed.
    Refused(u8),
}

impl Answer {
    /// The bytes taken.
    pub fn taken(&self) -> usize {
        match self {
            Answer::Quiet(taken) | Answer::Sent(taken, _) | Answer::Closed(taken) => *taken,
            Answer::Refused(_) => 0,
        }
    }
}

/// The number of words of a state.
pub fn state_words() -> usize {
    unsafe { figmorella_state_words() }
}

/// The lengths that the slices need, into `need`: state, disk, map, owner, table, selected, held. Answers 0 or 33.
pub fn memory(sizes: Sizes, need: &mut [usize]) -> u8 {
    let Sizes {
        blocks,
        files,
        sessions,
        most,
    } = sizes;
    unsafe { figmorella_memory(blocks, files, sessions, most, need.as_mut_ptr(), need.len()) }
}

/// A server with its memory, which the proved functions are lent at each call: they keep nothing themselves. They take slices of any lengths
/// and contents, so that a program may change each slice as it likes.
#[derive(Clone, Debug, Default, PartialEq, Eq)]
pub struct Server {
    pub state: Vec<u64>,
    pub disk: Vec<u8>,
    pub map: Vec<u64>,
    pub owner: Vec<u16>,
    pub table: Vec<u32>,
    pub selected: Vec<u32>,
    pub held: Vec<u8>,
    /// The packet of an answer, and the numbers of bytes taken and sent.
    pub out: Vec<u8>,
    pub counts: Vec<usize>,
}

impl Server {
    /// A server with these sizes over an empty store, or the number of the refusal.
    pub fn new(sizes: Sizes) -> Result<Server, u8> {
        let mut need = [0; 7];
        let refused = memory(sizes, &mut need);
        if refused != 0 {
            return Err(refused);
        }
        let [state, disk, map, owner, table, selected, held] = need;
        let mut server = Server {
            state: vec![0; state],
            disk: vec![0; disk],
            map: vec![0; map],
            owner: vec![0; owner],
            table: vec![0; table],
            selected: vec![0; selected],
            held: vec![0; held],
            out: vec![0; 258],
            counts: vec![0; 2],
        };
        match server.make(sizes) {
            0 => Ok(server),
            refused => Err(refused),
        }
    }

    /// A server with these sizes over an empty store, in the memory that is there. Answers 0 or 33.
    pub fn make(&mut self, sizes: Sizes) -> u8 {
        let Sizes {
            blocks,
            files,
            sessions,
            most,
        } = sizes;
        call!(figmorella_make[blocks, files, sessions, most](
            self: state, disk, map, owner, table, selected, held
        )[])
    }

    /// A link is there: the session, numbered from 1, begins, and LOGIN_RESP is sent.
    pub fn open(&mut self, session: usize, clock: u32) -> Answer {
        let number = self.open_number(session, clock);
        self.answer(number)
    }

    /// Bytes from the link: they are taken up to the end of one packet, or all. Those that are not taken are to be handed in again.
    pub fn receive(&mut self, session: usize, clock: u32, bytes: &[u8]) -> Answer {
        let number = self.receive_number(session, clock, bytes);
        self.answer(number)
    }

    /// What is due on the downlink: the next packet of a download or of a directory, or nothing.
    pub fn request(&mut self, session: usize) -> Answer {
        let number = self.request_number(session);
        self.answer(number)
    }

    /// The link is lost or was disconnected by the other side: the session is closed.
    pub fn lose(&mut self, session: usize) -> Answer {
        let number = self.lose_number(session);
        self.answer(number)
    }

    /// The numbers of free blocks and of all blocks.
    pub fn free(&mut self) -> Result<(usize, usize), u8> {
        match call!(figmorella_free[](self: state, map, counts)[]) {
            0 => Ok((self.counts[0], self.counts[1])),
            refused => Err(refused),
        }
    }

    // The same calls with the number that they answer by; the packet stays in `out`, and nothing is allocated.

    pub fn open_number(&mut self, session: usize, clock: u32) -> u8 {
        call!(figmorella_open[](
            self: state, disk, map, owner, table, selected, held, out, counts
        )[session, clock])
    }

    pub fn receive_number(&mut self, session: usize, clock: u32, bytes: &[u8]) -> u8 {
        call!(figmorella_receive[](
            self: state, disk, map, owner, table, selected, held, out, counts
        )[session, clock, bytes.as_ptr(), bytes.len()])
    }

    pub fn request_number(&mut self, session: usize) -> u8 {
        call!(figmorella_request[](
            self: state, disk, map, owner, table, selected, held, out, counts
        )[session])
    }

    pub fn lose_number(&mut self, session: usize) -> u8 {
        call!(figmorella_lose[](
            self: state, disk, map, owner, table, selected, held, counts
        )[session])
    }

    /// The answer that a call's number and the counts say.
    fn answer(&self, number: u8) -> Answer {
        match number {
            0 => Answer::Quiet(self.counts[0]),
            1 => Answer::Sent(self.counts[0], self.out[..self.counts[1]].to_vec()),
            2 => Answer::Closed(self.counts[0]),
            refused => Answer::Refused(refused),
        }
    }
}
