//! Random calls at random legal sizes, the proved server beside the second program.
use reference::draft::Draft;
use reference::server::{Server, Sizes};
use server::call::{Act, Call};
use server::coverage::Coverage;
use server::history::run_same;
use server::packets::{download, upload, whole_upload};
use server::pair::{Pair, Start};
use server::proved::Answer;

#[test]
fn random_calls_get_the_second_programs_answers() {
    let mut coverage = Coverage::default();
    let mut calls = 0;
    let mut seed = 1_000_000;
    while calls < 100_000 {
        let history = run_same(seed);
        coverage.add(&history.pair.coverage);
        calls += history.calls.len();
        seed += 1;
    }
    // the calls would show little if some answers were never given
    assert!(
        coverage.missing().is_empty(),
        "never given: {:?}\n{coverage}",
        coverage.missing()
    );
    assert!(coverage.unknown().is_empty(), "{:?}", coverage.unknown());
}

fn call(session: usize, act: Act) -> Call {
    Call {
        session,
        clock: 7,
        room: 258,
        act,
    }
}

/// The largest file there can be takes all 4,096 blocks; it comes back as it was sent, but for the fields that the server sets.
#[test]
fn a_file_as_large_as_the_store_goes_up_and_comes_down() {
    let mut pair = Pair::new(Start::new(Sizes {
        blocks: 4096,
        files: 1,
        sessions: 2,
        maxsel: 1,
    }));
    let mut made = |session, act| {
        pair.call(&call(session, act))
            .unwrap_or_else(|what| panic!("{what}"))
    };
    let empty = Draft::new().bytes().len();
    let body: Vec<u8> = (0..256 * 4096 - empty).map(|i| (i % 251) as u8).collect();
    made(1, Act::Open);
    made(2, Act::Open);
    for packet in whole_upload(&Draft::new().with_body(&body).bytes()) {
        made(1, Act::Receive(packet));
    }
    // the store is full
    let refused = made(1, Act::Receive(upload(0, 1)));
    assert_eq!(refused, Answer::Sent(10, vec![1, 5, 13]));
    made(2, Act::Receive(download(1, 0, 0)));
    let mut got: Vec<u8> = Vec::new();
    while let Answer::Sent(0, packet) = made(2, Act::Request) {
        got.extend(&packet[2..]);
    }
    assert_eq!(got.len(), 256 * 4096);
    assert!(got[empty..] == body);
}

/// The comparison can fail: each part of a state that is another one is found by the next call.
#[test]
fn states_that_differ_are_found() {
    let changes: [fn(&mut Server); 5] = [
        |second| second.store.last_number += 1,
        |second| second.store.last_time += 1,
        |second| second.store.disk[0] ^= 1,
        |second| second.store.free[0] ^= true,
        |second| second.sessions[1] = second.sessions[0].clone(),
    ];
    for change in changes {
        let mut pair = Pair::new(Start::new(Sizes::PROGRAM));
        assert!(pair.call(&call(1, Act::Open)).is_ok());
        change(&mut pair.second);
        // a refused call changes nothing and compares all
        assert!(pair.call(&call(1, Act::Open)).is_err());
    }
}
