//! What several test files share: hex, packets by name, and a driver that
//! looks after every call at what no call may break.

pub mod model;

use reference::packet::{Packet, Type};
use reference::server::{Answer, Downlink, Server, Sizes, Uplink};

/// Bytes from hex digits; blanks are passed over.
pub fn hex(text: &str) -> Vec<u8> {
    let digits: Vec<u32> = text
        .chars()
        .filter(|letter| !letter.is_whitespace())
        .map(|letter| letter.to_digit(16).expect("a hex digit"))
        .collect();
    digits
        .chunks(2)
        .map(|pair| (pair[0] * 16 + pair[1]) as u8)
        .collect()
}

pub fn packet(kind: Type, information: &[u8]) -> Vec<u8> {
    Packet::new(kind, information).bytes()
}

/// UPLOAD_CMD of a new file.
pub fn upload(length: u32) -> Vec<u8> {
    proceed(0, length)
}

/// UPLOAD_CMD that continues a file.
pub fn proceed(number: u32, length: u32) -> Vec<u8> {
    let information = [number.to_le_bytes(), length.to_le_bytes()].concat();
    packet(Type::UploadCmd, &information)
}

/// DATA packets that carry the bytes, each as full as the server takes.
pub fn data(bytes: &[u8]) -> Vec<u8> {
    bytes
        .chunks(256)
        .flat_map(|piece| packet(Type::Data, piece))
        .collect()
}

pub fn data_end() -> Vec<u8> {
    packet(Type::DataEnd, &[])
}

pub fn download(number: u32, offset: u32, lock_destination: u8) -> Vec<u8> {
    let mut information = [number.to_le_bytes(), offset.to_le_bytes()].concat();
    information.push(lock_destination);
    packet(Type::DownloadCmd, &information)
}

/// DIR_SHORT_CMD or DIR_LONG_CMD.
pub fn directory(kind: Type, number: u32) -> Vec<u8> {
    packet(kind, &number.to_le_bytes())
}

pub fn select(equation: &[u8]) -> Vec<u8> {
    packet(Type::SelectCmd, equation)
}

/// SELECT_CMD of the files with a larger upload time.
pub fn select_above(time: u32) -> Vec<u8> {
    select(&above(time))
}

/// The relation "upload_time is greater than".
pub fn above(time: u32) -> Vec<u8> {
    let mut bytes = hex("90 1200 04");
    bytes.extend(time.to_le_bytes());
    bytes
}

pub fn ack(destination: u8) -> Vec<u8> {
    packet(Type::DlAckCmd, &[destination])
}

pub fn nak() -> Vec<u8> {
    packet(Type::DlNakCmd, &[])
}

const POISON: u8 = 0xe7;

/// A server with a clock, driven as a program would. After every call the
/// store must be sound and the lent output changed only by the packet; a
/// refusal must have changed nothing.
#[derive(Clone)]
pub struct Desk {
    pub server: Server,
    pub clock: u32,
}

impl Desk {
    pub fn new() -> Desk {
        Desk::sized(Sizes::PROGRAM)
    }

    pub fn sized(sizes: Sizes) -> Desk {
        Desk {
            server: Server::new(sizes).expect("sizes of the table"),
            clock: 0,
        }
    }

    /// With session 1 open.
    pub fn opened() -> Desk {
        let mut desk = Desk::new();
        desk.open(1);
        desk
    }

    pub fn open(&mut self, session: u32) -> Answer {
        let clock = self.clock;
        self.call(|server, output| server.open(session, clock, output))
    }

    pub fn receive(&mut self, session: u32, bytes: &[u8]) -> Answer {
        let clock = self.clock;
        let answer = self.call(|server, output| server.receive(session, clock, bytes, output));
        if let Answer::Closed(took) | Answer::Quiet(took) | Answer::Sent(took, _) = answer {
            assert!(took <= bytes.len());
        }
        answer
    }

    pub fn request(&mut self, session: u32) -> Answer {
        self.call(|server, output| server.request(session, output))
    }

    pub fn lose(&mut self, session: u32) -> Answer {
        self.call(|server, _| server.lose(session))
    }

    fn call(&mut self, call: impl FnOnce(&mut Server, &mut [u8]) -> Answer) -> Answer {
        let before = self.server.clone();
        let mut output = [POISON; 300];
        let answer = call(&mut self.server, &mut output);
        assert_eq!(self.server.sound(), Ok(()));
        assert_eq!(self.server.kept(), Ok(()));
        let mut expected = [POISON; 300];
        match &answer {
            Answer::Refused(_) => assert_eq!(self.server, before),
            Answer::Sent(_, packet) => {
                let bytes = packet.bytes();
                expected[..bytes.len()].copy_from_slice(&bytes);
            }
            Answer::Closed(_) | Answer::Quiet(_) => {}
        }
        assert_eq!(output, expected);
        answer
    }

    /// Hands over all bytes, packet by packet, and tells what comes back.
    pub fn hear(&mut self, session: u32, bytes: &[u8]) -> Vec<String> {
        let mut told = Vec::new();
        let mut at = 0;
        loop {
            let answer = self.receive(session, &bytes[at..]);
            match &answer {
                Answer::Refused(_) | Answer::Closed(_) => {
                    told.push(tell(&answer));
                    return told;
                }
                Answer::Quiet(took) => at += took,
                Answer::Sent(took, _) => {
                    told.push(tell(&answer));
                    at += took;
                }
            }
            if at == bytes.len() {
                return told;
            }
        }
    }

    /// Requests until nothing is due.
    pub fn pump(&mut self, session: u32) -> Vec<String> {
        let mut told = Vec::new();
        loop {
            let before = self.server.clone();
            match self.request(session) {
                Answer::Quiet(0) => {
                    assert_eq!(self.server, before);
                    return told;
                }
                answer => told.push(tell(&answer)),
            }
        }
    }

    /// Hands over the bytes and then requests what is due.
    pub fn rx(&mut self, session: u32, bytes: &[u8]) -> Vec<String> {
        let mut told = self.hear(session, bytes);
        let index = session as usize - 1;
        if matches!(self.server.sessions.get(index), Some(Some(_))) {
            told.extend(self.pump(session));
        }
        told
    }

    /// Uploads a whole file on an idle uplink; it must be acknowledged.
    pub fn store(&mut self, session: u32, file: &[u8]) -> u32 {
        let number = self.server.store.last_number + 1;
        let stream = [upload(file.len() as u32), data(file), data_end()].concat();
        let told = self.hear(session, &stream);
        let go = format!("UL_GO_RESP {}", to_hex(&number.to_le_bytes()));
        assert_eq!(told, [go + "00000000", "UL_ACK_RESP ".to_string()]);
        number
    }

    pub fn uplink(&self, session: usize) -> Uplink {
        self.server.sessions[session - 1].as_ref().unwrap().uplink
    }

    pub fn downlink(&self, session: usize) -> Downlink {
        self.server.sessions[session - 1].as_ref().unwrap().downlink
    }

    pub fn is_open(&self, session: usize) -> bool {
        self.server.sessions[session - 1].is_some()
    }

    pub fn free(&self) -> usize {
        self.server.store.free_blocks()
    }

    /// The stored bytes of the file with that number.
    pub fn contents(&self, number: u32) -> Option<Vec<u8>> {
        let place = self.server.store.find(number)?;
        Some(self.server.store.contents(place))
    }
}

pub fn to_hex(bytes: &[u8]) -> String {
    bytes.iter().map(|byte| format!("{byte:02x}")).collect()
}

/// An answer as one line, without the bytes taken.
pub fn tell(answer: &Answer) -> String {
    match answer {
        Answer::Refused(number) => format!("refused {number}"),
        Answer::Closed(_) => "closed".to_string(),
        Answer::Quiet(_) => "quiet".to_string(),
        Answer::Sent(_, packet) => {
            format!("{} {}", packet.kind.name(), to_hex(&packet.information))
        }
    }
}
