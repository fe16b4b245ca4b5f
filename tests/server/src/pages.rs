//! Clients that ask for new files page by page, while files are uploaded between the pages, links are lost and the clock runs as it likes. They
//! learn the files of a page and their upload times from downloads, or from directories as document 003's loop does.
use crate::call::{Act, Call};
use crate::packets::{ack, data, data_end, directory, download, select, upload};
use crate::pair::{Pair, Start};
use crate::proved::Answer;
use reference::draft::Draft;
use reference::header;
use reference::packet::{number, Type};
use reference::random::Random;
use reference::server::{Sizes, ENTRIES, OUTPUT};

/// The kinds of file that equations ask for, as file_type.
const KINDS: u8 = 3;

/// A file that a session has begun to upload.
struct Begun {
    number: u32,
    kind: u8,
    bytes: Vec<u8>,
}

/// A complete file.
#[derive(Clone, Copy, Debug, PartialEq, Eq)]
struct Complete {
    number: u32,
    kind: u8,
}

/// The servers, the uploads of each session, and the files in the order of their completion.
struct World {
    pair: Pair,
    random: Random,
    begun: [Option<Begun>; 4],
    complete: Vec<Complete>,
}

impl World {
    fn new(sizes: Sizes, random: Random) -> World {
        let mut world = World {
            pair: Pair::new(Start::new(sizes)),
            random,
            begun: Default::default(),
            complete: Vec::new(),
        };
        for session in 1..=sizes.sessions {
            world.call(session, Act::Open);
        }
        world
    }

    /// A call at any clock: forwards, backwards, or as before.
    fn call(&mut self, session: usize, act: Act) -> Answer {
        let call = Call {
            session,
            clock: self.random.below(400) as u32,
            room: OUTPUT,
            act,
        };
        let answer = self.pair.call(&call);
        answer.unwrap_or_else(|what| panic!("{call}: {what}"))
    }

    /// A call that must send a packet of this type; its information.
    fn sent(&mut self, session: usize, act: Act, kind: Type) -> Vec<u8> {
        match self.call(session, act) {
            Answer::Sent(_, packet) if packet[1] % 32 == kind.number() => packet[2..].to_vec(),
            answer => panic!("{kind:?} is not sent: {answer:?}"),
        }
    }

    /// Begins an upload or ends the one begun: so files complete in another order than that of their numbers.
    fn upload(&mut self, session: usize) {
        match self.begun[session - 1].take() {
            None => self.begin(session),
            Some(begun) => self.end(session, begun),
        }
    }

    fn begin(&mut self, session: usize) {
        if self.pair.second.store.places.iter().all(Option::is_some) {
            return;
        }
        let kind = self.random.below(KINDS.into()) as u8;
        let length = self.random.below(30);
        let title = self.random.below(60);
        let mut draft = Draft::new()
            .with_item(0x22, &self.random.bytes(title))
            .with_body(&self.random.bytes(length));
        draft.set(header::FILE_TYPE, &[kind]);
        let bytes = draft.bytes();
        let command = upload(0, bytes.len() as u32);
        let go = self.sent(session, Act::Receive(command), Type::UlGoResp);
        self.begun[session - 1] = Some(Begun {
            number: number(&go[..4]),
            kind,
            bytes,
        });
    }

    /// The link is lost and made again; the upload that was begun is continued.
    fn relink(&mut self, session: usize) {
        self.call(session, Act::Lose);
        self.call(session, Act::Open);
        if let Some(Begun { number, bytes, .. }) = &self.begun[session - 1] {
            let command = upload(*number, bytes.len() as u32);
            self.sent(session, Act::Receive(command), Type::UlGoResp);
        }
    }

    fn end(&mut self, session: usize, begun: Begun) {
        for part in begun.bytes.chunks(256) {
            assert!(matches!(
                self.call(session, Act::Receive(data(part))),
                Answer::Quiet(_)
            ));
        }
        self.sent(session, Act::Receive(data_end()), Type::UlAckResp);
        self.complete.push(Complete {
            number: begun.number,
            kind: begun.kind,
        });
    }
}

/// A file as a client got it.
#[derive(Clone, Copy, Debug, PartialEq, Eq)]
struct Given {
    number: u32,
    kind: u8,
    time: u32,
}

impl Given {
    /// What a header says.
    fn of(header: &[u8]) -> Given {
        let item = |id| number(header::first(header, id).expect("a mandatory item"));
        Given {
            number: item(header::FILE_NUMBER),
            kind: item(header::FILE_TYPE) as u8,
            time: item(header::UPLOAD_TIME),
        }
    }
}

/// The headers that run on one behind the other.
fn headers(mut bytes: &[u8]) -> Vec<&[u8]> {
    let mut headers = Vec::new();
    while !bytes.is_empty() {
        let end = match header::items(bytes).last() {
            Some(last) => last.at + last.length + 3,
            None => panic!("{bytes:02x?} is no header"),
        };
        assert_eq!(bytes[end - 3..end], [0; 3]);
        headers.push(&bytes[..end]);
        bytes = &bytes[end..];
    }
    headers
}

/// What a client wants: all kinds of file, or one.
#[derive(Clone, Copy, Debug)]
enum Wanted {
    All,
    Kind(u8),
}

impl Wanted {
    fn equation(self) -> Vec<u8> {
        match self {
            Wanted::All => vec![0x83, 0x02, 0x00, 0x01, b'*'],
            Wanted::Kind(kind) => vec![0x80, 0x08, 0x00, 0x01, kind],
        }
    }

    fn has(self, kind: u8) -> bool {
        match self {
            Wanted::All => true,
            Wanted::Kind(wanted) => wanted == kind,
        }
    }
}

/// How a client reads the files of a page.
#[derive(Clone, Copy, Debug)]
enum Way {
    Downloads,
    Short,
    Long,
    /// Any of these, file by file.
    Mixed,
}

struct Client {
    session: usize,
    wanted: Wanted,
    way: Way,
    given: Vec<Given>,
    /// How many files of the page are still to be read, and whether it is the last page.
    left: usize,
    last: bool,
    /// The files that were complete at the last SELECT.
    complete: Vec<Complete>,
    pages: usize,
    /// The links lost between pages.
    lost: usize,
}

impl Client {
    fn new(session: usize, wanted: Wanted, way: Way) -> Client {
        Client {
            session,
            wanted,
            way,
            given: Vec::new(),
            left: 0,
            last: false,
            complete: Vec::new(),
            pages: 0,
            lost: 0,
        }
    }

    fn done(&self) -> bool {
        self.last && self.left == 0
    }

    /// Asks for a page, now and then on a new link, or reads its next file or files.
    fn step(&mut self, world: &mut World) {
        if self.left != 0 {
            let way = match self.way {
                Way::Mixed => *world.random.pick(&[Way::Downloads, Way::Short, Way::Long]),
                way => way,
            };
            return match way {
                Way::Short => self.list(world, false),
                Way::Long => self.list(world, true),
                _ => self.read(world),
            };
        }
        if world.random.chance(1, 4) {
            world.relink(self.session);
            self.lost += 1;
        }
        self.ask(world);
    }

    /// "from upload time 0, then again above each page's newest time .. until a page is shorter than MAXSEL"
    fn ask(&mut self, world: &mut World) {
        let newest = self.given.last().map_or(0, |file| file.time);
        let mut equation = self.wanted.equation();
        equation.extend([0x90, 0x12, 0x00, 0x04]);
        equation.extend(newest.to_le_bytes());
        equation.push(0x01);
        let count = world.sent(
            self.session,
            Act::Receive(select(&equation)),
            Type::SelectResp,
        );
        self.left = number(&count) as usize;
        self.last = self.left < world.pair.second.sizes.maxsel;
        self.complete.clone_from(&world.complete);
        self.pages += 1;
    }

    /// Downloads the next selected file and learns its number and upload time from it.
    fn read(&mut self, world: &mut World) {
        let quiet = world.call(self.session, Act::Receive(download(0, 0, 0)));
        assert!(matches!(quiet, Answer::Quiet(_)), "{quiet:?}");
        let file = world.sent(self.session, Act::Request, Type::Data);
        world.sent(self.session, Act::Request, Type::DataEnd);
        world.sent(self.session, Act::Receive(ack(0)), Type::DlCompletedResp);
        self.given.push(Given::of(&file));
        self.left -= 1;
    }

    /// Asks for the directory of the next selected files, ten of them or as many as are left, and learns the same from it.
    fn list(&mut self, world: &mut World, long: bool) {
        let quiet = world.call(self.session, Act::Receive(directory(long, 0)));
        assert!(matches!(quiet, Answer::Quiet(_)), "{quiet:?}");
        let mut sent = Vec::new();
        loop {
            match world.call(self.session, Act::Request) {
                Answer::Sent(0, packet) if packet[1] % 32 == Type::Data.number() => {
                    sent.extend(&packet[2..])
                }
                Answer::Sent(0, packet) if packet == [0, 1] => break,
                answer => panic!("{answer:?}"),
            }
        }
        let headers = headers(&sent);
        assert_eq!(headers.len(), self.left.min(ENTRIES));
        assert!(long || headers.iter().all(|header| header.len() == 80));
        self.given.extend(headers.into_iter().map(Given::of));
        self.left -= self.left.min(ENTRIES);
    }

    /// "has been given every matching file complete by then once, oldest first"
    fn check(&self) {
        let matching = self
            .complete
            .iter()
            .filter(|file| self.wanted.has(file.kind));
        let want: Vec<Complete> = matching.copied().collect();
        let complete = |file: &Given| Complete {
            number: file.number,
            kind: file.kind,
        };
        let got: Vec<Complete> = self.given.iter().map(complete).collect();
        assert_eq!(got, want, "{:?}", self.wanted);
        assert!(self.given.windows(2).all(|two| two[0].time < two[1].time));
    }
}

/// What a run of four clients came to.
#[derive(Clone, Copy, Debug, Default)]
pub struct Read {
    pub pages: usize,
    pub files: usize,
    /// files that became complete while a client was reading
    pub meanwhile: usize,
    /// links lost between pages
    pub lost: usize,
}

/// Uploads files up to `first`, then lets four clients read them page by page while the store is filled on.
pub fn run(maxsel: usize, files: usize, first: usize, random: Random) -> Read {
    let sizes = Sizes {
        blocks: files,
        files,
        sessions: 4,
        maxsel,
    };
    let mut world = World::new(sizes, random);
    while world.complete.len() < first {
        let session = world.random.between(1, 4);
        world.upload(session);
    }
    let wanted = [
        (Wanted::All, Way::Downloads),
        (Wanted::All, Way::Mixed),
        (Wanted::Kind(0), Way::Short),
        (Wanted::Kind(2), Way::Long),
    ];
    let mut clients: Vec<Client> = (1..)
        .zip(wanted)
        .map(|(session, (wanted, way))| Client::new(session, wanted, way))
        .collect();
    while clients.iter().any(|client| !client.done()) {
        let at = world.random.below(4);
        if world.random.chance(1, 3) {
            world.upload(at + 1);
        }
        if !clients[at].done() {
            clients[at].step(&mut world);
        }
    }
    clients.iter().for_each(Client::check);
    Read {
        pages: clients.iter().map(|client| client.pages).sum(),
        files: clients.iter().map(|client| client.given.len()).sum(),
        meanwhile: world.complete.len() - first,
        lost: clients.iter().map(|client| client.lost).sum(),
    }
}
