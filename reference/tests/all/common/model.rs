//! A model of the files that sees only the packets of the links.

use std::collections::{BTreeMap, BTreeSet};

use reference::header;
use reference::packet::{number, Framed, Type};
use reference::script::{Call, Watch};
use reference::server::{Answer, Server};

/// What the packets of the links say about the files.
#[derive(Default)]
pub struct Model {
    /// The bytes accepted under each number not yet complete.
    pub partials: BTreeMap<u32, Vec<u8>>,
    /// The stored bytes of each complete file, fixed at its completion.
    pub complete: BTreeMap<u32, Vec<u8>>,
    given: BTreeSet<u32>,
    /// Numbers and upload times in order of completion.
    pub order: Vec<(u32, u32)>,
    /// The file that each session is uploading.
    pub uploading: [Option<u32>; 4],
}

impl Model {
    /// A whole packet was taken and answered.
    pub fn heard(
        &mut self,
        server: &Server,
        clock: u32,
        session: u32,
        sent: &Framed,
        answer: &Answer,
    ) {
        let uploading = &mut self.uploading[session as usize - 1];
        if matches!(answer, Answer::Closed(_)) {
            *uploading = None;
            return;
        }
        let (kind, information) = match sent {
            Framed::Whole { kind, information } => (kind, information),
            _ => return,
        };
        let response = match answer {
            Answer::Sent(_, packet) => Some(packet),
            _ => None,
        };
        match (Type::of(*kind), response.map(|packet| packet.kind)) {
            (Some(Type::UploadCmd), Some(Type::UlGoResp)) => {
                let go = &response.unwrap().information;
                let (file, offset) = (number(&go[..4]), number(&go[4..]));
                if number(&information[..4]) == 0 {
                    assert!(self.given.insert(file), "a number given twice");
                    self.partials.insert(file, Vec::new());
                }
                assert_eq!(offset as usize, self.partials[&file].len());
                *uploading = Some(file);
            }
            (Some(Type::Data), None) => {
                if let Some(file) = uploading {
                    self.partials.get_mut(file).unwrap().extend(information);
                }
            }
            (Some(Type::Data | Type::DataEnd), Some(Type::UlNakResp)) => {
                let file = uploading.take().unwrap();
                self.partials.remove(&file);
            }
            (Some(Type::DataEnd), Some(Type::UlAckResp)) => {
                let file = uploading.take().unwrap();
                self.completed(server, clock, file);
            }
            _ => {}
        }
    }

    /// A complete file is the bytes accepted with the five fields replaced.
    fn completed(&mut self, server: &Server, clock: u32, file: u32) {
        let accepted = self.partials.remove(&file).unwrap();
        let stored = server.store.contents(server.store.find(file).unwrap());
        let time = number(header::first(&stored, 0x12).unwrap());
        let (_, last) = self.order.last().copied().unwrap_or((0, 0));
        assert_eq!(time, clock.max(last + 1));
        let mut expected = accepted.clone();
        let found = header::check(&accepted, accepted.len() as u32).unwrap();
        header::set_server_fields(&mut expected, &found, file, time);
        assert_eq!(stored, expected);
        self.order.push((file, time));
        self.complete.insert(file, stored);
    }

    /// Each file of the store is what the history says, and there is no other.
    pub fn agrees(&self, server: &Server) {
        let mut live = 0;
        for (place, file) in server.store.places.iter().enumerate() {
            if let Some(file) = file {
                live += 1;
                let expected = if file.is_complete() {
                    &self.complete[&file.number]
                } else {
                    &self.partials[&file.number]
                };
                assert_eq!(&server.store.contents(place), expected);
            }
        }
        assert_eq!(live, self.complete.len() + self.partials.len());
    }
}

/// Looks on while a script runs and holds every state against the model.
#[derive(Default)]
pub struct Onlooker {
    pub model: Model,
    framed: Option<Framed>,
    clock: u32,
}

impl Watch for Onlooker {
    fn before(&mut self, server: &Server, clock: u32, call: Call) {
        self.clock = clock;
        self.framed = None;
        if let Call::Receive(session, bytes) = call {
            let index = (session as usize).wrapping_sub(1);
            if let Some(Some(session)) = server.sessions.get(index) {
                self.framed = Some(session.frame.clone().feed(bytes).1);
            }
        }
    }

    fn after(&mut self, server: &Server, call: Call, answer: &Answer) {
        assert_eq!(server.sound(), Ok(()));
        assert_eq!(server.kept(), Ok(()));
        match (call, &self.framed, answer) {
            (_, _, Answer::Refused(_)) => {}
            (Call::Receive(session, _), Some(framed), _) => {
                self.model
                    .heard(server, self.clock, session, framed, answer);
            }
            (Call::Lose(session), _, _) => {
                self.model.uploading[session as usize - 1] = None;
            }
            _ => {}
        }
        self.model.agrees(server);
    }
}
