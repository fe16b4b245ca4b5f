//! The proved server and the second program side by side. Each call is made on both; then answers, outputs and states are compared.
use crate::call::{Act, Call};
use crate::coverage::{session, Coverage};
use crate::image::{same_bytes, same_words};
use crate::oracle::{judge, kept};
use crate::proved::{empty, memory, Answer, Proved};
use reference::server::{Answer as Second, Server, Sizes};

/// How often the bytes of all blocks are compared, in calls; those that are refused compare them always.
const DISK_EVERY: usize = 64;

/// A server before its first call.
#[derive(Clone, Copy, Debug, PartialEq, Eq)]
pub struct Start {
    pub sizes: Sizes,
    /// The last file number and upload time given. From the empty store others than 0 take very many calls, so both servers are set to them.
    pub last_number: u32,
    pub last_time: u32,
    /// How many elements are lent beyond what each slice needs.
    pub longer: usize,
}

impl Start {
    pub fn new(sizes: Sizes) -> Start {
        Start {
            sizes,
            last_number: 0,
            last_time: 0,
            longer: 0,
        }
    }
}

pub struct Pair {
    pub proved: Proved,
    pub second: Server,
    pub coverage: Coverage,
    calls: usize,
    /// All slices before a call but the disk.
    before: Proved,
    /// What is lent beyond the slices' needs; no call may change it.
    beyond: Proved,
}

impl Pair {
    pub fn new(start: Start) -> Pair {
        let mut proved = empty(start.sizes, start.longer);
        let mut second = Server::new(start.sizes).expect("sizes of the table");
        proved.state[4] = start.last_number.into();
        proved.state[5] = start.last_time.into();
        second.store.last_number = start.last_number;
        second.store.last_time = start.last_time;
        let blocks = second.store.disk.len();
        second.store.disk.copy_from_slice(&proved.disk[..blocks]);
        let beyond = beyond(&proved, start.sizes);
        Pair {
            proved,
            second,
            coverage: Coverage::default(),
            calls: 0,
            before: Proved::default(),
            beyond,
        }
    }

    /// Makes a call on both servers; an error says in what they differ.
    pub fn call(&mut self, call: &Call) -> Result<Answer, String> {
        self.calls += 1;
        let fill = self.calls as u8;
        let mut output = vec![fill; call.room];
        self.proved.out.clear();
        self.proved.out.resize(call.room, fill);
        self.proved.counts = vec![71, 72, 73];
        self.remember();
        let before = session(&self.second, call).map(|session| session.downlink);
        let got = on_proved(&mut self.proved, call);
        let want = on_second(&mut self.second, call, &mut output);
        self.coverage.count(&got);
        self.coverage
            .count_directory(before, call, &got, &self.second);
        if got != want {
            return Err(format!("proved {got:02x?}, second {want:02x?}"));
        }
        if self.proved.out != output {
            return Err("the outputs differ".to_string());
        }
        self.compare(&got)?;
        Ok(got)
    }

    /// Keeps all slices but the disk, which is compared with the second program's and is long.
    fn remember(&mut self) {
        let (kept, now) = (&mut self.before, &self.proved);
        kept.state.clone_from(&now.state);
        kept.map.clone_from(&now.map);
        kept.owner.clone_from(&now.owner);
        kept.table.clone_from(&now.table);
        kept.selected.clone_from(&now.selected);
        kept.held.clone_from(&now.held);
        kept.out.clone_from(&now.out);
        kept.counts.clone_from(&now.counts);
    }

    fn compare(&mut self, answer: &Answer) -> Result<(), String> {
        let refused = matches!(answer, Answer::Refused(_));
        if refused {
            self.same_as_before()?;
        } else if self.proved.counts[2] != 73 {
            return Err("a third count is written".to_string());
        }
        if refused || self.calls % DISK_EVERY == 0 {
            same_bytes(&self.proved, &self.second)?;
        }
        same_words(&self.proved, &self.second)?;
        let judged = judge(&self.proved);
        if judged.refused.is_some() {
            return Err(format!("a fact of 35 is broken: {}", judged.broken));
        }
        if let Err(fact) = kept(&self.proved) {
            return Err(format!("calls do not keep: {fact}"));
        }
        if let Err(fact) = self.second.sound().and(self.second.kept()) {
            return Err(format!("a fact is broken in the second program: {fact}"));
        }
        if beyond(&self.proved, self.second.sizes) != self.beyond {
            return Err("what is lent beyond the needs is changed".to_string());
        }
        let (free, all) = (self.second.store.free_blocks(), self.second.sizes.blocks);
        match self.proved.free() {
            Ok(counted) if counted == (free, all) => Ok(()),
            counted => Err(format!(
                "free blocks: proved {counted:?}, second {free} of {all}"
            )),
        }
    }

    fn same_as_before(&mut self) -> Result<(), String> {
        let disk = std::mem::take(&mut self.proved.disk);
        let same = self.proved == self.before;
        self.proved.disk = disk;
        match same {
            true => Ok(()),
            false => Err("a refused call changed what was lent".to_string()),
        }
    }
}

/// What is lent beyond the slices' needs.
fn beyond(proved: &Proved, sizes: Sizes) -> Proved {
    let mut need = [0; 7];
    assert_eq!(memory(sizes, &mut need), 0);
    Proved {
        state: proved.state[need[0]..].to_vec(),
        disk: proved.disk[need[1]..].to_vec(),
        map: proved.map[need[2]..].to_vec(),
        owner: proved.owner[need[3]..].to_vec(),
        table: proved.table[need[4]..].to_vec(),
        selected: proved.selected[need[5]..].to_vec(),
        held: proved.held[need[6]..].to_vec(),
        ..Proved::default()
    }
}

/// Makes a call on the proved server, with the output as it is lent.
pub fn on_proved(proved: &mut Proved, call: &Call) -> Answer {
    match &call.act {
        Act::Open => proved.open(call.session, call.clock),
        Act::Receive(bytes) => proved.receive(call.session, call.clock, bytes),
        Act::Request => proved.request(call.session),
        Act::Lose => proved.lose(call.session),
    }
}

/// Makes a call on the second program.
pub fn on_second(second: &mut Server, call: &Call, output: &mut [u8]) -> Answer {
    // no session has a number that the second program has no room for
    let session = u32::try_from(call.session).unwrap_or(u32::MAX);
    let answer = match &call.act {
        Act::Open => second.open(session, call.clock, output),
        Act::Receive(bytes) => second.receive(session, call.clock, bytes, output),
        Act::Request => second.request(session, output),
        Act::Lose => second.lose(session),
    };
    match answer {
        Second::Quiet(taken) => Answer::Quiet(taken),
        Second::Sent(taken, packet) => Answer::Sent(taken, packet.bytes()),
        Second::Closed(taken) => Answer::Closed(taken),
        Second::Refused(number) => Answer::Refused(number),
    }
}
