//! Every word of the lent memory with other values, one at a time: the proved server's answer must be the oracle's, and nothing may change.
use crate::call::{Act, Call};
use crate::oracle::{judge, map_fits, Fact, Judged, FACTS, MOST};
use crate::pair::on_proved;
use crate::proved::{Answer, Proved};
use crate::words::{Part, Word};
use reference::random::Random;
use std::fmt;

/// How much of one memory is tried: so many words of each part and so many values of each word, picked at random where there are more.
#[derive(Clone, Copy, Debug)]
pub struct Effort {
    pub words: usize,
    pub values: usize,
    /// Words of at most so many bits get every value that they can have.
    pub every_value_of: u32,
}

impl Effort {
    /// Every word, every value of 8 and 16 bits, and every value below for wider words.
    pub const ALL: Effort = Effort {
        words: usize::MAX,
        values: usize::MAX,
        every_value_of: 16,
    };

    /// The same, but words of 16 bits get the values of wider words.
    pub const TELLING: Effort = Effort {
        every_value_of: 8,
        ..Effort::ALL
    };

    /// So many of each.
    pub fn some(words: usize, values: usize) -> Effort {
        Effort {
            words,
            values,
            ..Effort::TELLING
        }
    }
}

// ---- values

/// Other values for a word of so many bits: every one, or single bits turned, what is near the present one and near 0, what stands in other
/// words and one beside it, the lengths of whole blocks and one beside them, and the ends of the ranges of 8, 16, 32 and 64 bits.
fn values(part: Part, now: u64, seen: &[u64], effort: Effort) -> Vec<u64> {
    let bits = part.bits();
    let most = u64::MAX >> (64 - bits);
    let mut values: Vec<u64> = Vec::new();
    if bits <= effort.every_value_of {
        values.extend(0..=most);
    } else {
        let beside = |value: u64| [value.wrapping_sub(1), value, value.wrapping_add(1)];
        values.extend((0..bits).map(|bit| now ^ 1 << bit));
        values.extend((0..=300).flat_map(|n| [n, now.wrapping_add(n), now.wrapping_sub(n)]));
        values.extend(seen.iter().copied().flat_map(beside));
        values.extend((0..=64).map(|blocks| 256 * blocks).flat_map(beside));
        let ends = [
            1 << 7,
            1 << 8,
            1 << 15,
            1 << 16,
            1 << 31,
            1 << 32,
            1 << 63,
            0,
        ];
        values.extend(ends.into_iter().flat_map(beside));
        values.iter_mut().for_each(|value| *value &= most);
    }
    values.sort_unstable();
    values.dedup();
    values.retain(|value| *value != now);
    values
}

/// The values that stand in any word, each once.
fn standing(lent: &Proved) -> Vec<u64> {
    let words = |part: Part| (0..part.length(lent)).map(move |at| part.get(lent, at));
    let mut seen: Vec<u64> = Part::ALL.into_iter().flat_map(words).collect();
    seen.sort_unstable();
    seen.dedup();
    seen
}

/// At most so many of these, picked at random.
fn some<T>(mut things: Vec<T>, most: usize, random: &mut Random) -> Vec<T> {
    if most < things.len() {
        for at in 0..most {
            let other = random.between(at, things.len() - 1);
            things.swap(at, other);
        }
        things.truncate(most);
    }
    things
}

// ---- counts

/// Changes of one word, and words of one memory, that break one fact and no other.
#[derive(Clone, Copy, Debug, Default)]
struct Alone {
    changes: u64,
    words: u64,
    /// Whether the word that is tried now broke it.
    now: bool,
}

/// How often a fact was broken, and each fact of its kind alone.
#[derive(Clone, Copy, Debug, Default)]
struct Counted {
    broken: u64,
    alone: [Alone; MOST],
}

/// What was tried, and how often each fact was broken.
#[derive(Clone, Debug)]
pub struct Tally {
    pub memories: u64,
    pub words: u64,
    pub changes: u64,
    /// Changes that break nothing.
    pub sound: u64,
    /// Sizes outside the table, or larger than what is lent.
    pub outside: u64,
    facts: [Counted; FACTS],
}

impl Default for Tally {
    fn default() -> Tally {
        Tally {
            memories: 0,
            words: 0,
            changes: 0,
            sound: 0,
            outside: 0,
            facts: [Counted::default(); FACTS],
        }
    }
}

impl Tally {
    fn alone(&mut self) -> impl Iterator<Item = &mut Alone> {
        self.facts.iter_mut().flat_map(|fact| &mut fact.alone)
    }

    fn count(&mut self, judged: &Judged) {
        self.changes += 1;
        match judged.refused {
            None => self.sound += 1,
            Some(33) => self.outside += 1,
            Some(_) => {}
        }
        if judged.broken.count() != 0 {
            for fact in Fact::all().filter(|fact| judged.broken.has(*fact)) {
                self.facts[fact as usize].broken += 1;
            }
        }
        if let Some((fact, which)) = judged.broken.only() {
            let alone = &mut self.facts[fact as usize].alone[which];
            alone.changes += 1;
            alone.now = true;
        }
    }

    fn end_word(&mut self) {
        self.words += 1;
        for alone in self.alone() {
            alone.words += u64::from(alone.now);
            alone.now = false;
        }
    }

    pub fn add(&mut self, other: &Tally) {
        self.memories += other.memories;
        self.words += other.words;
        self.changes += other.changes;
        self.sound += other.sound;
        self.outside += other.outside;
        for (sum, more) in self.facts.iter_mut().zip(&other.facts) {
            sum.broken += more.broken;
            for (sum, more) in sum.alone.iter_mut().zip(&more.alone) {
                sum.changes += more.changes;
                sum.words += more.words;
            }
        }
    }

    /// The facts that no change of one word broke alone.
    pub fn missing(&self) -> Vec<String> {
        let mut missing = Vec::new();
        for fact in Fact::all() {
            for (which, of) in fact.each().iter().enumerate() {
                if self.facts[fact as usize].alone[which].changes == 0 {
                    missing.push(format!("{} {of}", fact.name()));
                }
            }
        }
        missing
    }
}

impl fmt::Display for Tally {
    fn fmt(&self, f: &mut fmt::Formatter) -> fmt::Result {
        let what = "changes of one word";
        writeln!(
            f,
            "{what:<40}{:>10}{:>10}{:>8}",
            "break it", "alone", "words"
        )?;
        for fact in Fact::all() {
            let Counted { broken, alone } = &self.facts[fact as usize];
            let alone = &alone[..fact.each().len()];
            let changes: u64 = alone.iter().map(|one| one.changes).sum();
            let words: u64 = alone.iter().map(|one| one.words).sum();
            write!(f, "{:<40}{broken:>10}{changes:>10}{words:>8}", fact.name())?;
            if 1 < alone.len() {
                let one = |(of, one): (&&str, &Alone)| format!("{of}: {}", one.changes);
                let each: Vec<String> = fact.each().iter().zip(alone).map(one).collect();
                write!(f, "  {}", each.join(", "))?;
            }
            writeln!(f)?;
        }
        let Tally {
            memories,
            words,
            changes,
            sound,
            outside,
            ..
        } = self;
        writeln!(
            f,
            "{changes} changes of {words} words in {memories} states: {sound} break nothing, {outside} are sizes outside the table"
        )
    }
}

// ---- calls

/// Any call at all, for memory that is refused before the session is looked at.
pub fn any_call(random: &mut Random) -> Call {
    let acts = [
        Act::Open,
        Act::Receive(Vec::new()),
        Act::Receive(vec![0, 1, 2]),
        Act::Request,
        Act::Lose,
    ];
    Call {
        session: random.below(6),
        clock: random.below(3000) as u32,
        room: *random.pick(&[0, 257, 258, 258]),
        act: random.pick(&acts).clone(),
    }
}

/// The refusal of a call, made so that sound memory is refused too: there is no session 0.
fn refusal(lent: &mut Proved, judged: &Judged, random: &mut Random) -> (Call, Answer) {
    let mut call = Call {
        session: 0,
        clock: 7,
        room: lent.out.len(),
        act: Act::Request,
    };
    if random.chance(1, 8) {
        call = any_call(random);
        if judged.refused.is_none() {
            call.session = 0;
        }
    }
    let room = lent.out.len();
    lent.out.resize(call.room, 0xee);
    let answer = on_proved(lent, &call);
    let untouched = lent.out.len() == call.room && lent.out.iter().all(|byte| *byte == 0xee);
    assert!(untouched, "{call}: the output was written");
    lent.out.resize(room, 0xee);
    (call, answer)
}

/// "The number free is the count of its one bits": the sizes and the map's length are judged, then the words, and no fact of the store.
fn counts_free_blocks(lent: &mut Proved, judged: &Judged) -> bool {
    let counts = lent.counts.clone();
    let counted = lent.free();
    lent.counts = counts;
    let mut of_words = Fact::all().take_while(|fact| *fact != Fact::Owner);
    let is_state = !of_words.any(|fact| judged.broken.has(fact));
    match counted {
        Err(33) => !map_fits(lent),
        Err(number) => map_fits(lent) && !is_state && number == 35,
        Ok((free, all)) => {
            let words = &lent.map[..(all + 63) / 64];
            let ones: u32 = words.iter().map(|word| word.count_ones()).sum();
            map_fits(lent) && is_state && all as u64 == lent.state[0] && free == ones as usize
        }
    }
}

/// Tries one change, which is taken back by the caller.
fn change(lent: &mut Proved, word: Word, random: &mut Random) -> Result<Judged, String> {
    word.apply(lent);
    let judged = judge(lent);
    let (call, answer) = refusal(lent, &judged, random);
    let want = Answer::Refused(judged.refused.unwrap_or(34));
    if answer != want {
        let broken = judged.broken;
        return Err(format!(
            "{word:x?}, {call}: {answer:?}, the oracle says {want:?} {broken}"
        ));
    }
    if word.part.get(lent, word.at) != word.value {
        return Err(format!("{word:x?}, {call}: the word was changed"));
    }
    if random.chance(1, 64) && !counts_free_blocks(lent, &judged) {
        return Err(format!("{word:x?}: the free blocks are counted wrongly"));
    }
    Ok(judged)
}

/// Tries the words of one memory, in which no fact is broken.
pub fn sweep(whole: &Proved, effort: Effort, random: &mut Random) -> Result<Tally, String> {
    let mut tally = Tally {
        memories: 1,
        ..Tally::default()
    };
    let mut whole = whole.clone();
    whole.out = vec![0xee; 258];
    whole.counts = vec![71, 72];
    let judged = judge(&whole);
    if judged.refused.is_some() {
        return Err(format!("not sound: {}", judged.broken));
    }
    let seen = standing(&whole);
    let mut lent = whole.clone();
    for part in Part::ALL {
        let words = some((0..part.length(&whole)).collect(), effort.words, random);
        for at in words {
            let now = part.get(&whole, at);
            for value in some(values(part, now, &seen, effort), effort.values, random) {
                let judged = change(&mut lent, Word { part, at, value }, random)?;
                tally.count(&judged);
            }
            part.put(&mut lent, at, now);
            tally.end_word();
            if lent != whole {
                return Err(format!("{part:?} {at}: another word was changed"));
            }
        }
    }
    Ok(tally)
}
