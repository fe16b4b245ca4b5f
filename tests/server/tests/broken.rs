//! Refusal 35: every word of what is lent is changed, in states of random histories, and the answer is the oracle's; and changes of several
//! words that break one fact. (That no state of a random history gets 35 is part of every comparison with the second program.)
use reference::random::Random;
use server::broken::{apply, State, FACTS};
use server::call::Call;
use server::history::run_same;
use server::oracle::{judge, Fact};
use server::pair::{on_proved, Start};
use server::proved::{Answer, Proved};
use server::states::{largest, of_one_case, random_state, start, LARGER, SMALL};
use server::sweep::{any_call, sweep, Effort, Tally};

/// How many ways of breaking a fact are tried in one state.
const TRIED: usize = 3;

/// A state of a random history of so many calls.
fn state(seed: u64, calls: usize, start: Start) -> Proved {
    random_state(seed, calls, start).unwrap_or_else(|failure| panic!("{failure}"))
}

/// Tries the words of these memories, on as many processors as there are.
fn swept(memories: &[Proved], effort: Effort) -> Tally {
    let one = |(memory, seed): (&Proved, u64)| {
        let sizes = &memory.state[..4];
        sweep(memory, effort, &mut Random::new(seed))
            .unwrap_or_else(|what| panic!("memory {seed}, sizes {sizes:?}: {what}"))
    };
    let mut all = Tally::default();
    let threads = std::thread::available_parallelism().map_or(1, |count| count.get());
    std::thread::scope(|scope| {
        let share = (memories.len() + threads - 1) / threads;
        let started: Vec<_> = (0..threads)
            .map(|thread| {
                let mine = memories.iter().zip(0..).skip(thread * share).take(share);
                scope.spawn(move || mine.map(one).collect::<Vec<Tally>>())
            })
            .collect();
        for thread in started {
            match thread.join() {
                Ok(tallies) => tallies.iter().for_each(|tally| all.add(tally)),
                Err(failure) => std::panic::resume_unwind(failure),
            }
        }
    });
    all
}

/// Every word, every value of 8 and 16 bits and the telling ones of 32 and 64 bits: each fact is broken alone.
#[test]
fn every_word_of_a_small_state_with_every_value() {
    let mut memories = of_one_case().to_vec();
    for (seed, sizes) in (2_100_000..).zip(SMALL) {
        memories.push(state(seed, 400, start(sizes, seed as usize % 2)));
    }
    let tally = swept(&memories, Effort::ALL);
    println!("{tally}");
    assert_eq!(tally.missing(), Vec::<String>::new(), "never broken alone");
}

/// Sizes at which every value of 16 bits would take long, the program's among them, with the telling values.
#[test]
fn every_word_of_a_larger_state() {
    let sized = |(seed, sizes)| state(seed, 400, start(sizes, 0));
    let memories: Vec<Proved> = (2_200_000..).zip(LARGER).map(sized).collect();
    println!("{}", swept(&memories, Effort::TELLING));
}

/// The largest sizes, with some of the telling values of each word.
#[test]
fn every_word_of_the_largest_state() {
    let random = state(2_300_000, 2500, start((4096, 256, 4, 50), 0));
    let memories = [random, largest()];
    println!("{}", swept(&memories, Effort::some(usize::MAX, 16)));
}

#[test]
fn the_facts_stand_in_their_order() {
    for (at, fact) in Fact::all().enumerate() {
        assert_eq!(fact as usize, at);
    }
}

/// The proved server answers a call by 35, and nothing changes; the oracle says so too.
fn refused(proved: &mut Proved, call: &Call, what: &str) {
    let before = proved.clone();
    assert_eq!(judge(proved).refused, Some(35), "{what}");
    assert_eq!(
        on_proved(proved, call),
        Answer::Refused(35),
        "{what}: {call}"
    );
    assert!(*proved == before, "{what}: {call} changed something");
}

#[test]
fn a_state_with_a_broken_fact_is_35() {
    let mut tried = [0; FACTS.len()];
    for seed in 2_000_000..2_000_250 {
        let mut random = Random::new(seed);
        let mut whole = run_same(seed).pair.proved;
        for (at, (name, changes)) in FACTS.iter().enumerate() {
            let changes = changes(&State::of(&whole));
            for _ in 0..TRIED.min(changes.len()) {
                let change = random.pick(&changes);
                let call = any_call(&mut random);
                whole.out = vec![0xee; call.room];
                let mut proved = whole.clone();
                apply(&mut proved, change);
                refused(
                    &mut proved,
                    &call,
                    &format!("seed {seed}, {name}, {change:x?}"),
                );
                tried[at] += 1;
            }
        }
    }
    for ((name, _), count) in FACTS.iter().zip(tried) {
        println!("{count:>6}  {name}");
    }
    for ((name, _), count) in FACTS.iter().zip(tried) {
        assert!(20 <= count, "{name}: broken in {count} states only");
    }
}
