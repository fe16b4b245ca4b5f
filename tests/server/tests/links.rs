//! Links that chop the bytes as they like, and links that are lost.
use reference::draft::Draft;
use reference::random::Random;
use reference::server::Sizes;
use server::call::{Act, Call};
use server::history::run_same;
use server::packets::{data, data_end, download, upload, whole_upload};
use server::pair::{on_proved, Pair, Start};
use server::proved::{Answer, Proved};

/// The servers as a history begins.
fn begun(start: Start) -> Proved {
    Pair::new(start).proved
}

/// Hands over the bytes that a call took in pieces; the answer to the last one, as if they had been taken at once.
fn in_pieces(proved: &mut Proved, call: &Call, taken: &[u8], random: &mut Random) -> Answer {
    let mut from = 0;
    loop {
        let length = match random.below(3) {
            0 => 0,
            1 => 1,
            _ => random.below(taken.len() + 1),
        };
        let piece = &taken[from..(from + length).min(taken.len())];
        let answer = proved.receive(call.session, call.clock, piece);
        from += piece.len();
        if from == taken.len() {
            return match answer {
                Answer::Quiet(_) => Answer::Quiet(from),
                Answer::Sent(_, packet) => Answer::Sent(from, packet),
                Answer::Closed(_) => Answer::Closed(from),
                refused => refused,
            };
        }
        assert_eq!(answer, Answer::Quiet(piece.len()), "{call}");
    }
}

/// "Cutting elsewhere the bytes that a link takes .. changes no packet sent and no state after it."
#[test]
fn bytes_cut_elsewhere_change_nothing() {
    for seed in 3_000_000..3_000_100 {
        let history = run_same(seed);
        let mut random = Random::new(seed);
        let (mut whole, mut cut) = (begun(history.start), begun(history.start));
        for call in &history.calls {
            whole.out = vec![0xee; call.room];
            cut.out = vec![0xee; call.room];
            let want = on_proved(&mut whole, call);
            let got = match &call.act {
                // an empty piece after a packet's end would be one call more, which answers itself
                Act::Receive(bytes) if want.taken() != 0 => {
                    in_pieces(&mut cut, call, &bytes[..want.taken()], &mut random)
                }
                _ => on_proved(&mut cut, call),
            };
            assert_eq!(got, want, "seed {seed}: {call}");
            cut.counts.clone_from(&whole.counts);
            assert!(cut == whole, "seed {seed}: {call}");
        }
    }
}

/// Makes calls on session 1.
struct Client {
    pair: Pair,
}

impl Client {
    fn call(&mut self, act: Act) -> Answer {
        let call = Call {
            session: 1,
            clock: 40,
            room: 258,
            act,
        };
        let answer = self.pair.call(&call);
        answer.unwrap_or_else(|what| panic!("{call}: {what}"))
    }

    fn send(&mut self, bytes: &[u8]) -> Answer {
        self.call(Act::Receive(bytes.to_vec()))
    }

    /// Sends bytes of several packets, and loses the link.
    fn send_and_lose(&mut self, mut bytes: &[u8]) {
        while !bytes.is_empty() {
            let taken = self.send(bytes).taken();
            bytes = &bytes[taken..];
        }
        assert_eq!(self.call(Act::Lose), Answer::Quiet(0));
    }
}

/// The lengths of the DATA packets that an upload is sent in.
const PARTS: [usize; 5] = [1, 0, 256, 100, 143];

/// "After a link lost at any byte .. the partial holds exactly the whole DATA packets received, and a continuation offers that length."
#[test]
fn a_link_lost_after_each_byte_of_an_upload() {
    let header = Draft::new().bytes().len();
    let body: Vec<u8> = (0..PARTS.iter().sum::<usize>() - header)
        .map(|i| (i % 250) as u8)
        .collect();
    let file = Draft::new().with_body(&body).bytes();
    let length = file.len() as u32;
    let mut sent = upload(0, length);
    // where each whole DATA ends in the bytes sent, and the file's bytes up to there
    let mut ends = vec![(sent.len(), 0)];
    for part in PARTS {
        let from = ends[ends.len() - 1].1;
        sent.extend(data(&file[from..from + part]));
        ends.push((sent.len(), from + part));
    }
    for lost in ends[0].0..=sent.len() {
        let mut client = Client {
            pair: Pair::new(Start::new(Sizes::PROGRAM)),
        };
        client.call(Act::Open);
        client.send_and_lose(&sent[..lost]);
        let whole = ends
            .iter()
            .rfind(|end| end.0 <= lost)
            .expect("the command is whole")
            .1;
        client.call(Act::Open);
        let offered = client.send(&upload(1, length));
        let mut go = vec![8, 4, 1, 0, 0, 0];
        go.extend((whole as u32).to_le_bytes());
        assert_eq!(offered, Answer::Sent(10, go), "lost after {lost} bytes");
        for part in file[whole..].chunks(256) {
            client.send(&data(part));
        }
        assert_eq!(client.send(&data_end()), Answer::Sent(2, vec![0, 6]));
    }
}

/// A link lost in a download: the next link begins anew, and the file is whole.
#[test]
fn a_link_lost_in_a_download() {
    let file = Draft::new().with_body(&[5; 700]).bytes();
    let mut client = Client {
        pair: Pair::new(Start::new(Sizes::PROGRAM)),
    };
    client.call(Act::Open);
    for packet in whole_upload(&file) {
        client.send(&packet);
    }
    for requests in 0..6 {
        client.send(&download(1, 0, 0));
        for _ in 0..requests {
            client.call(Act::Request);
        }
        client.call(Act::Lose);
        client.call(Act::Open);
        assert_eq!(client.call(Act::Request), Answer::Quiet(0));
    }
    client.send(&download(1, 256, 0));
    let packet = match client.call(Act::Request) {
        Answer::Sent(0, packet) => packet,
        _ => panic!("no DATA"),
    };
    assert_eq!(packet[2..], file[256..512]);
}
