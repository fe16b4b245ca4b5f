//! Lent slices that are too short, and sizes outside the table: 33 or 32, and nothing changes.
use reference::server::Sizes;
use server::history::run_same;
use server::proved::{empty, lent, make, memory, state_words, Answer, Proved};
use server::states::{of_one_case, random_state, start};

fn program() -> Proved {
    empty(Sizes::PROGRAM, 0)
}

type Made = fn(&mut Proved, usize) -> Answer;

/// Each of the four calls on a session, on a copy; the answer and the slices afterwards.
fn calls(proved: &Proved, session: usize) -> Vec<(Answer, Proved)> {
    let acts: [Made; 5] = [
        |proved, session| proved.open(session, 9),
        |proved, session| proved.receive(session, 9, &[]),
        |proved, session| proved.receive(session, 9, &[1, 0x10, 0]),
        |proved, session| proved.request(session),
        |proved, session| proved.lose(session),
    ];
    let run = |act: &Made| {
        let mut copy = proved.clone();
        (act(&mut copy, session), copy)
    };
    acts.iter().map(run).collect()
}

fn all_refused(proved: &Proved, number: u8, what: &str) {
    for session in [0, 1, 2, 5] {
        for (answer, after) in calls(proved, session) {
            assert_eq!(answer, Answer::Refused(number), "{what}");
            assert!(after == *proved, "{what}: something changed");
        }
    }
}

/// What is left of a slice.
#[derive(Clone, Copy)]
enum Left {
    AllButOne,
    None,
}

impl Left {
    fn cut<T>(self, slice: &mut Vec<T>) {
        match self {
            Left::AllButOne => slice.truncate(slice.len() - 1),
            Left::None => slice.clear(),
        }
    }
}

/// A slice by its name, and how it loses its elements.
type Shorten = (&'static str, fn(&mut Proved, Left));

/// Each slice with one element too few, and with none at all.
fn shortened(proved: &Proved) -> Vec<(&'static str, Proved)> {
    let shorten: [Shorten; 8] = [
        ("state", |proved, left| left.cut(&mut proved.state)),
        ("disk", |proved, left| left.cut(&mut proved.disk)),
        ("map", |proved, left| left.cut(&mut proved.map)),
        ("owner", |proved, left| left.cut(&mut proved.owner)),
        ("table", |proved, left| left.cut(&mut proved.table)),
        ("selected", |proved, left| left.cut(&mut proved.selected)),
        ("held", |proved, left| left.cut(&mut proved.held)),
        ("counts", |proved, left| left.cut(&mut proved.counts)),
    ];
    let mut all = Vec::new();
    for (name, change) in shorten {
        for left in [Left::AllButOne, Left::None] {
            let mut copy = proved.clone();
            change(&mut copy, left);
            all.push((name, copy));
        }
    }
    all
}

/// Words that are no state: the flag of a session is neither 0 nor 1. The sizes stand in other words.
fn no_state(proved: &Proved) -> Proved {
    let mut copy = proved.clone();
    copy.state[6] = 2;
    copy
}

/// Every length of the output: below 258 bytes a call that would be answered is 32, and from there on the length makes no difference.
fn every_output(proved: &Proved, what: &str) -> usize {
    const FILL: u8 = 0xee;
    let mut answered = 0;
    for session in 1..=4 {
        let mut lent = proved.clone();
        lent.out = vec![FILL; 258];
        let whole = calls(&lent, session);
        for room in 0..=300 {
            lent.out = vec![FILL; room];
            // the last call is lose, which has no output
            for ((want, left), (got, after)) in whole.iter().zip(calls(&lent, session)).take(4) {
                let answers = !matches!(want, Answer::Refused(_));
                answered += usize::from(answers);
                if answers && room < 258 {
                    assert_eq!(got, Answer::Refused(32), "{what}, output of {room}");
                    assert!(after == lent, "{what}, output of {room}");
                    continue;
                }
                assert_eq!(got, *want, "{what}, output of {room}");
                let mut left = left.clone();
                left.out.resize(room, FILL);
                assert!(after == left, "{what}, output of {room}");
            }
        }
    }
    answered
}

#[test]
fn an_output_below_258_bytes_is_32() {
    let mut proved = program();
    assert!(matches!(proved.open(1, 0), Answer::Sent(0, _)));
    assert!(0 < every_output(&proved, "an empty store"));
    let sizes = start((12, 8, 4, 2), 0);
    let answered: usize = (0..12)
        .map(|seed| {
            let state =
                random_state(seed, 200, sizes).unwrap_or_else(|failure| panic!("{failure}"));
            every_output(&state, &format!("seed {seed}"))
        })
        .sum();
    assert!(100 < answered, "{answered}");
    for state in of_one_case() {
        assert!(0 < every_output(&state, "sessions in one case"));
    }
}

#[test]
fn losing_a_link_needs_no_output() {
    let mut proved = program();
    proved.open(1, 0);
    proved.out.clear();
    assert_eq!(proved.lose(1), Answer::Quiet(0));
}

#[test]
fn each_slice_one_element_short_is_33() {
    for seed in 0..60 {
        let pair = run_same(seed).pair;
        let mut proved = pair.proved;
        // what is lent beyond the needs goes first
        let mut need = [0; 7];
        assert_eq!(memory(pair.second.sizes, &mut need), 0);
        proved.state.truncate(need[0]);
        proved.disk.truncate(need[1]);
        proved.map.truncate(need[2]);
        proved.owner.truncate(need[3]);
        proved.table.truncate(need[4]);
        proved.selected.truncate(need[5]);
        proved.held.truncate(need[6]);
        proved.counts.truncate(2);
        proved.out = vec![0xee; 258];
        for (name, short) in shortened(&proved) {
            all_refused(&short, 33, name);
        }
        let damaged = no_state(&proved);
        all_refused(&damaged, 35, "no state");
        for (name, short) in shortened(&damaged) {
            all_refused(&short, 33, name);
        }
    }
}

#[test]
fn a_server_is_not_made_over_short_slices() {
    let largest = start((4096, 256, 4, 50), 0).sizes;
    let least = start((1, 1, 1, 1), 0).sizes;
    for sizes in [
        Sizes::PROGRAM,
        start((65, 2, 3, 4), 0).sizes,
        least,
        largest,
    ] {
        for (name, mut short) in shortened(&lent(sizes, 0)) {
            // the counts are not lent to this call
            let want = if name == "counts" { 0 } else { 33 };
            let before = short.clone();
            assert_eq!(make(&mut short, sizes), want, "{name}");
            assert!(want == 0 || short == before, "{name}");
        }
    }
}

/// The order of the local refusals: 33, 35, 34, 32.
#[test]
fn the_order_of_local_refusals() {
    let mut proved = program();
    proved.out = vec![0; 257];
    for (answer, after) in calls(&proved, 5) {
        assert_eq!(answer, Answer::Refused(34), "no such session");
        assert!(after == proved);
    }
    proved.map[0] ^= 1;
    all_refused(&proved, 35, "the map is wrong");
    proved.held.pop();
    all_refused(&proved, 33, "the map is wrong and a slice is short");
    let mut damaged = no_state(&program());
    damaged.out = vec![0; 257];
    all_refused(&damaged, 35, "the words are no state");
    damaged.state[1] = 257;
    all_refused(&damaged, 33, "and the number of files is outside the table");
}

#[test]
fn sizes_outside_the_table_are_33() {
    let sizes = |blocks, files, sessions, maxsel| Sizes {
        blocks,
        files,
        sessions,
        maxsel,
    };
    let most = usize::MAX;
    let outside = [
        sizes(0, 32, 4, 50),
        sizes(4097, 32, 4, 50),
        sizes(most, 32, 4, 50),
        sizes(128, 0, 4, 50),
        sizes(128, 257, 4, 50),
        sizes(128, most, 4, 50),
        sizes(128, 32, 0, 50),
        sizes(128, 32, 5, 50),
        sizes(128, 32, most, 50),
        sizes(128, 32, 4, 0),
        sizes(128, 32, 4, 51),
        sizes(128, 32, 4, most),
    ];
    for wrong in outside {
        let mut need = [7; 7];
        assert_eq!(memory(wrong, &mut need), 33, "{wrong:?}");
        assert_eq!(need, [7; 7]);
        // the slices are long enough for the largest sizes
        let mut proved = lent(sizes(4096, 256, 4, 50), 100);
        let before = proved.clone();
        assert_eq!(make(&mut proved, wrong), 33, "{wrong:?}");
        assert!(proved == before);
    }
}

#[test]
fn the_memory_that_sizes_need() {
    let mut need = [0; 8];
    need[7] = 5;
    assert_eq!(memory(Sizes::PROGRAM, &mut need), 0);
    assert_eq!(need, [state_words(), 32_768, 2, 128, 128, 200, 1032, 5]);
    for short in 0..7 {
        let mut need = vec![7; short];
        assert_eq!(memory(Sizes::PROGRAM, &mut need), 33);
        assert_eq!(need, vec![7; short]);
    }
}

#[test]
fn free_blocks_are_not_counted_in_short_slices() {
    for (name, mut short) in shortened(&program()) {
        let counted = short.free();
        match name {
            "state" | "map" | "counts" => assert_eq!(counted, Err(33), "{name}"),
            _ => assert_eq!(counted, Ok((128, 128)), "{name}"),
        }
    }
    for (name, mut short) in shortened(&no_state(&program())) {
        let counted = short.free();
        match name {
            "state" | "map" | "counts" => assert_eq!(counted, Err(33), "{name}"),
            _ => assert_eq!(counted, Err(35), "{name}"),
        }
    }
}
