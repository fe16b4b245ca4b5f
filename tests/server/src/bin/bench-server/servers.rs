//! The servers that are measured, behind the same calls.
use reference::server::{Answer, Server, Sizes, Uplink, OUTPUT};
use server::proved::{make, Proved};

const CLOCK: u32 = 5;

pub trait Calls {
    /// The empty store, with no session open.
    fn empty(&mut self);
    fn open(&mut self, session: usize);
    /// The bytes taken.
    fn receive(&mut self, session: usize, bytes: &[u8]) -> usize;
    /// Whether a packet was sent.
    fn request(&mut self, session: usize) -> bool;
    /// The output that is lent, in which a packet that was sent stands.
    fn output(&self) -> &[u8];
    /// Sets the bytes received of the file at a place back to none, with session 1, which uploads it.
    fn rewind(&mut self, place: usize);
    /// Sets the place in session 2's selection back to its first file.
    fn reselect(&mut self);
}

impl Calls for Proved {
    fn empty(&mut self) {
        let [blocks, files, sessions, maxsel] = [0, 1, 2, 3].map(|at| self.state[at] as usize);
        let sizes = Sizes {
            blocks,
            files,
            sessions,
            maxsel,
        };
        assert_eq!(make(self, sizes), 0);
    }

    fn open(&mut self, session: usize) {
        assert_eq!(self.open_number(session, CLOCK), 1);
    }

    fn receive(&mut self, session: usize, bytes: &[u8]) -> usize {
        let number = self.receive_number(session, CLOCK, bytes);
        assert!(number < 2, "{number}");
        self.counts[0]
    }

    fn request(&mut self, session: usize) -> bool {
        let number = self.request_number(session);
        assert!(number < 2, "{number}");
        number == 1
    }

    fn output(&self) -> &[u8] {
        &self.out
    }

    fn rewind(&mut self, place: usize) {
        self.table[4 * place + 2] = 0;
        self.state[6 + 4] = 0;
    }

    fn reselect(&mut self) {
        self.state[6 + 12 + 11] = 0;
    }
}

/// The second program; with `checks` it tests the facts of refusal 35 at each call, as the proved server does.
pub struct Second {
    server: Server,
    output: Vec<u8>,
    checks: bool,
}

impl Second {
    pub fn new(sizes: Sizes, checks: bool) -> Second {
        Second {
            server: Server::new(sizes).expect("sizes of the table"),
            output: vec![0; OUTPUT],
            checks,
        }
    }

    fn check(&self) {
        assert!(!self.checks || self.server.sound().is_ok());
    }
}

impl Calls for Second {
    fn empty(&mut self) {
        let store = &mut self.server.store;
        store.free.fill(true);
        store.places.fill(None);
        store.last_number = 0;
        store.last_time = 0;
        self.server.sessions.fill(None);
    }

    fn open(&mut self, session: usize) {
        self.check();
        let answer = self.server.open(session as u32, CLOCK, &mut self.output);
        assert!(matches!(answer, Answer::Sent(..)));
    }

    fn receive(&mut self, session: usize, bytes: &[u8]) -> usize {
        self.check();
        let output = &mut self.output;
        match self.server.receive(session as u32, CLOCK, bytes, output) {
            Answer::Quiet(taken) | Answer::Sent(taken, _) => taken,
            answer => panic!("{answer:?}"),
        }
    }

    fn request(&mut self, session: usize) -> bool {
        self.check();
        match self.server.request(session as u32, &mut self.output) {
            Answer::Quiet(_) => false,
            Answer::Sent(..) => true,
            answer => panic!("{answer:?}"),
        }
    }

    fn output(&self) -> &[u8] {
        &self.output
    }

    fn rewind(&mut self, place: usize) {
        if let Some(file) = &mut self.server.store.places[place] {
            file.received = 0;
        }
        if let Some(session) = &mut self.server.sessions[0] {
            session.uplink = Uplink::Receiving {
                place,
                offset: 0,
                received: 0,
            };
        }
    }

    fn reselect(&mut self) {
        if let Some(session) = &mut self.server.sessions[1] {
            session.selection.position = 0;
        }
    }
}
