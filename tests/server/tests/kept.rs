//! States that no calls made and that 35 accepts all the same: an upload that counts fewer bytes than its file has, two sessions that upload one
//! file, an open session beyond those in use (D58, D59); a directory of no file or of more than ten, or of which more bytes are sent than an entry
//! has (D127); a header that has another upload time than its record (D43). Each call there is made on the second program in the same state, and compared.
use reference::draft::Draft;
use reference::random::Random;
use reference::server::{Directory, Downlink, Listed, Server, Session, Sizes, Uplink};
use server::broken::{apply, Change, State, KEPT};
use server::call::{Act, Call};
use server::history::run_same;
use server::image::{entries, same_bytes, same_words, session_words, HEAD, SESSION};
use server::oracle::{judge, kept};
use server::packets::{
    ack, data, data_end, directory, download, nak, select, upload, whole_upload,
};
use server::pair::{on_proved, on_second, Pair, Start};
use server::proved::{Answer, Proved};
use server::states::all_selected;

/// How many changes of one kind are tried in one state.
const TRIED: usize = 4;

/// The words of a session, counted from 0.
fn words(proved: &Proved, index: usize) -> &[u64] {
    &proved.state[HEAD + SESSION * index..][..SESSION]
}

/// The second program's directory as the words of its session say: what is sent beyond an entry is sent of those behind it, as far as there are any.
fn listing(second: &Server, session: &Session, words: &[u64]) -> Downlink {
    let end = session.selection.position;
    let listed = match words[5] {
        4 | 5 => Listed::One {
            place: words[6] as usize,
        },
        _ => Listed::Selected {
            first: usize::try_from(words[6]).map_or(end, |first| first.min(end)),
            end,
        },
    };
    let long = words[5] % 2 == 1;
    let directory = Directory { long, listed };
    let lengths: Vec<usize> = entries(second, session, directory)
        .iter()
        .map(Vec::len)
        .collect();
    let behind: usize = lengths.iter().take(words[7] as usize).sum();
    let sent = lengths
        .iter()
        .sum::<usize>()
        .min(behind + words[8] as usize);
    let sent = sent as u32;
    Downlink::Listing { directory, sent }
}

/// The second program's uplinks and directories as the words of the sessions in use say.
fn follow(second: &mut Server, proved: &Proved) {
    for index in 0..second.sessions.len() {
        let words = words(proved, index);
        let mut session = match second.sessions[index].clone() {
            Some(session) => session,
            None => continue,
        };
        if words[1] == 1 {
            session.uplink = Uplink::Receiving {
                place: words[2] as usize,
                offset: words[3] as u32,
                received: words[4] as u32,
            };
        }
        session.selection.position = words[11] as usize;
        if 4 <= words[5] {
            session.downlink = listing(second, &session, words);
        }
        second.sessions[index] = Some(session);
    }
}

fn downlink(second: &Server, index: usize) -> Option<Downlink> {
    second.sessions[index]
        .as_ref()
        .map(|session| session.downlink)
}

/// A directory that a call left alone keeps its words, which need not be those that calls write: in the place of those it gets these, for the comparison.
fn settle(after: &mut Proved, before: &Proved, second: &Server, second_before: &Server) {
    for index in 0..second.sessions.len() {
        let now = downlink(second, index);
        if matches!(now, Some(Downlink::Listing { .. })) && now == downlink(second_before, index) {
            assert_eq!(words(after, index)[5..9], words(before, index)[5..9]);
            let at = HEAD + SESSION * index;
            after.state[at + 5..at + 9].copy_from_slice(&session_words(second, index)[5..9]);
        }
    }
}

/// What a client or the driver can do with an upload or a directory, and some of the rest.
fn calls(second: &Server) -> Vec<Call> {
    let mut acts = vec![
        Act::Open,
        Act::Request,
        Act::Lose,
        Act::Receive(Vec::new()),
        Act::Receive(data(&[1])),
        Act::Receive(data(&[2; 256])),
        Act::Receive(data_end()),
        Act::Receive(upload(0, 300)),
        Act::Receive(select(&[0x90, 0x12, 0, 4, 0, 0, 0, 0])),
        Act::Receive(download(0, 0, 0)),
        Act::Receive(directory(false, 0)),
        Act::Receive(directory(true, 1)),
        Act::Receive(ack(0)),
        Act::Receive(nak()),
    ];
    for file in second.store.places.iter().flatten() {
        acts.push(Act::Receive(upload(file.number, file.length)));
    }
    let sessions = 1..=second.sizes.sessions;
    let call = |act: &Act, session| Call {
        session,
        clock: 3000,
        room: 258,
        act: act.clone(),
    };
    sessions
        .flat_map(|session| acts.iter().map(move |act| call(act, session)))
        .collect()
}

/// The words of the sessions beyond those in use.
fn beyond<'a>(proved: &'a mut Proved, second: &Server) -> &'a mut [u64] {
    &mut proved.state[HEAD + SESSION * second.sizes.sessions..HEAD + SESSION * 4]
}

/// Makes the call on both; the words of sessions beyond those in use stay, and are none of the second program's. The answer, and whether the next
/// call is refused by 35.
fn same(before: &Proved, second_before: &Server, call: &Call) -> (Answer, bool) {
    let (mut proved, mut second) = (before.clone(), second_before.clone());
    let mut output = vec![0xee; call.room];
    proved.out.clone_from(&output);
    let untouched = beyond(&mut proved, &second).to_vec();
    let got = on_proved(&mut proved, call);
    let want = on_second(&mut second, call, &mut output);
    assert_eq!(got, want, "{call}");
    assert_eq!(proved.out, output, "{call}");
    assert_eq!(*beyond(&mut proved, &second), untouched, "{call}");
    beyond(&mut proved, &second).fill(0);
    let refused = judge(&proved).refused;
    assert_eq!(proved.lose(0), Answer::Refused(refused.unwrap_or(34)));
    settle(&mut proved, before, &second, second_before);
    same_words(&proved, &second).unwrap_or_else(|what| panic!("{call}: {what}"));
    same_bytes(&proved, &second).unwrap_or_else(|what| panic!("{call}: {what}"));
    (got, refused == Some(35))
}

/// A packet that says 2, to UPLOAD_CMD.
fn is_2(answer: &Answer) -> bool {
    matches!(answer, Answer::Sent(_, packet) if packet[..] == [1, 5, 2])
}

/// 35 accepts the changed state, and names no broken fact; the oracle says what calls would have kept.
fn accepted(whole: &Proved, change: &Change, name: &str) -> Proved {
    let mut proved = whole.clone();
    apply(&mut proved, change);
    let judged = judge(&proved);
    assert_eq!(judged.refused, None, "{name}: {}", judged.broken);
    assert_eq!(kept(&proved), Err(name));
    proved
}

#[test]
fn a_state_that_calls_would_not_make_is_answered_as_its_words_say() {
    let mut tried = [0; KEPT.len()];
    let (mut refused_by_2, mut refused_next) = (0, [0; KEPT.len()]);
    // few random histories select more than ten files
    let random = (2_400_000..2_400_120).map(|seed| run_same(seed).pair);
    for (pair, seed) in random.chain((11..18).map(all_selected)).zip(0..) {
        let mut random = Random::new(seed);
        for (at, (name, changes)) in KEPT.iter().enumerate() {
            let changes = changes(&State::of(&pair.proved));
            for _ in 0..TRIED.min(changes.len()) {
                let proved = accepted(&pair.proved, random.pick(&changes), name);
                let mut second = pair.second.clone();
                follow(&mut second, &proved);
                for call in calls(&second) {
                    let (answer, next) = same(&proved, &second, &call);
                    refused_by_2 += usize::from(is_2(&answer));
                    refused_next[at] += usize::from(next);
                }
                tried[at] += 1;
            }
        }
    }
    for ((name, _), count) in KEPT.iter().zip(tried) {
        assert!(20 <= count, "{name}: broken in {count} states only");
    }
    assert!(20 <= refused_by_2, "{refused_by_2}");
    // one of two sessions on a file ends its upload: the other names no partial file any more
    assert!(20 <= refused_next[2], "{}", refused_next[2]);
    refused_next[2] = 0;
    assert_eq!(refused_next, [0; KEPT.len()]);
}

/// Two complete files of 80 bytes, in the first two blocks.
fn two_files() -> Pair {
    let mut pair = Pair::new(Start::new(Sizes::PROGRAM));
    let packets = whole_upload(&Draft::new().bytes());
    let mut acts = vec![Act::Open];
    acts.extend(packets.iter().chain(&packets).cloned().map(Act::Receive));
    for act in acts {
        let call = Call {
            session: 1,
            clock: 100,
            room: 258,
            act,
        };
        pair.call(&call)
            .unwrap_or_else(|what| panic!("{call}: {what}"));
    }
    pair
}

/// Where the upload time stands in a header with only the mandatory items.
const UPLOAD_TIME: std::ops::Range<usize> = 73..77;

#[test]
fn a_header_with_another_upload_time_is_answered_as_it_stands() {
    let pair = two_files();
    assert_eq!(pair.proved.disk[UPLOAD_TIME], 100u32.to_le_bytes());
    // none, the other file's, above the last one given
    for time in [0, 101, u32::MAX] {
        let (mut proved, mut second) = (pair.proved.clone(), pair.second.clone());
        proved.disk[UPLOAD_TIME].copy_from_slice(&time.to_le_bytes());
        second.store.disk[UPLOAD_TIME].copy_from_slice(&time.to_le_bytes());
        assert_eq!(judge(&proved).refused, None);
        for call in calls(&second) {
            same(&proved, &second, &call);
        }
    }
}

/// Any bytes of a file are bytes of a file (D43): a directory sends nothing of one whose items DATA_END would refuse (D128), and no call makes such a
/// file.
#[test]
fn a_file_whose_bytes_are_no_header_has_no_entry() {
    let pair = two_files();
    // no AA 55; file_number of another length; id 0 with a length; body_offset twice and no upload_time
    for (at, byte) in [(0, 0xab), (4, 5), (2, 0), (70, 0x0b)] {
        for long in [false, true] {
            let mut proved = pair.proved.clone();
            proved.disk[at] = byte;
            assert_eq!(judge(&proved).refused, None);
            assert_eq!(
                proved.receive(1, 100, &directory(long, 1)),
                Answer::Quiet(6)
            );
            assert_eq!(proved.request(1), Answer::Sent(0, vec![0, 1]));
            assert_eq!(proved.request(1), Answer::Quiet(0));
            // the other file's entry comes behind it
            proved.state[HEAD + 10] = 2;
            proved.selected[..2].copy_from_slice(&[1, 2]);
            assert_eq!(
                proved.receive(1, 100, &directory(long, 0)),
                Answer::Quiet(6)
            );
            let mut data = vec![80, 0];
            data.extend(&proved.disk[256..256 + 80]);
            assert_eq!(proved.request(1), Answer::Sent(0, data));
            assert_eq!(proved.request(1), Answer::Sent(0, vec![0, 1]));
        }
    }
}
