//! The random scripts: that they are the same for a seed, reach all they are
//! meant to reach, and break nothing in this program's own server.

use std::collections::{BTreeMap, BTreeSet};

use crate::common::model::Onlooker;
use reference::coverage::Coverage;
use reference::equation::{is_number, Equation, Symbol};
use reference::generator::{equation, seed_of, sound, story, uploads, wide};
use reference::header;
use reference::random::Random;
use reference::script::{run, run_watched, Line};

#[test]
fn the_same_seed_gives_the_same_script() {
    let mut texts = BTreeSet::new();
    for index in 0..50 {
        let seed = seed_of(3, index);
        let text = story(seed).text();
        assert_eq!(story(seed).text(), text);
        assert!(texts.insert(text), "two seeds give one script");
    }
}

#[test]
fn the_scripts_reach_every_row_of_the_table() {
    let mut coverage = Coverage::new();
    for index in 0..1500 {
        let text = story(seed_of(1, index)).text();
        let (_, driver) = run_watched(&text, Coverage::new());
        coverage.add(&driver.watch);
    }
    assert_eq!(coverage.unforeseen(), [""; 0]);
    assert_eq!(coverage.missing(), [""; 0]);
}

/// The data of the items of each id that a file has more than once.
fn several(file: &[u8]) -> BTreeMap<u16, Vec<Vec<u8>>> {
    let mut items: BTreeMap<u16, Vec<Vec<u8>>> = BTreeMap::new();
    for item in header::items(file) {
        let data = item.data(file).to_vec();
        items.entry(item.id).or_default().push(data);
    }
    items.retain(|_, data| data.len() > 1);
    items
}

#[test]
fn many_files_have_several_items_of_one_id() {
    let mut random = Random::new(13);
    let (mut any, mut destinations, mut titles, mut unlisted) = (0, 0, 0, 0);
    let (mut wrong_first, mut wrong_later) = (0, 0);
    for _ in 0..1000 {
        let file = sound(&mut random, 40).bytes();
        assert!(header::check(&file, file.len() as u32).is_ok());
        let several = several(&file);
        any += usize::from(!several.is_empty());
        for (id, data) in &several {
            match id {
                0x14 => destinations += 1,
                0x22 => titles += 1,
                _ => unlisted += 1,
            }
            if data.iter().any(|data| is_number(data)) {
                wrong_first += usize::from(!is_number(&data[0]));
                wrong_later += usize::from(data[1..].iter().any(|data| !is_number(data)));
            }
        }
    }
    assert!(any > 450, "{any}");
    let each = [destinations, titles, unlisted, wrong_first, wrong_later];
    assert!(each.iter().all(|&count| count > 100), "{each:?}");
}

#[test]
fn large_headers_are_sound_and_of_many_lengths() {
    let mut random = Random::new(15);
    let (mut above_a_block, mut above_ten, mut at_a_border) = (0, 0, 0);
    for _ in 0..1000 {
        let file = wide(&mut random).bytes();
        let header = header::check(&file, file.len() as u32).unwrap();
        above_a_block += usize::from(header.length > 256);
        above_ten += usize::from(header.length > 2560);
        at_a_border += usize::from(header.length % 256 == 0);
    }
    assert!(above_a_block > 700, "{above_a_block}");
    assert!(above_ten > 80, "{above_ten}");
    assert!(at_a_border > 80, "{at_a_border}");
}

#[test]
fn many_equations_ask_for_several_items_of_one_id() {
    let mut random = Random::new(14);
    let (mut accepted, mut asking, mut by_a_later) = (0, 0, 0);
    for _ in 0..1000 {
        let files: Vec<Vec<u8>> = (0..4).map(|_| sound(&mut random, 4).bytes()).collect();
        let bytes = equation(&mut random, &files);
        assert!(bytes.len() <= 256);
        let equation = match Equation::parse(&bytes) {
            Ok(equation) => equation,
            Err(_) => continue,
        };
        accepted += 1;
        let (mut asks, mut later) = (false, false);
        for symbol in equation.symbols() {
            if let Symbol::Relation(relation) = symbol {
                for file in &files {
                    if let Some(data) = several(file).get(&relation.id()) {
                        asks = true;
                        later |= relation.holds(file) && !relation.is_met_by(&data[0]);
                    }
                }
            }
        }
        asking += usize::from(asks);
        by_a_later += usize::from(later);
    }
    let counts = [accepted, asking, by_a_later];
    let often = asking * 2 > accepted && by_a_later * 4 > accepted;
    assert!(often, "{counts:?}");
}

#[test]
fn the_store_is_what_the_packets_say() {
    let mut completed = 0;
    for index in 0..150 {
        let text = story(seed_of(2, index)).text();
        let (_, driver) = run_watched(&text, Onlooker::default());
        completed += driver.watch.model.order.len();
    }
    assert!(completed > 200, "only {completed} files completed");
}

#[test]
fn only_the_end_of_a_script_cannot_be_read() {
    for index in 0..200 {
        let story = story(seed_of(4, index));
        let unreadable = story
            .lines
            .iter()
            .position(|line| Line::parse(line).is_none());
        if let Some(place) = unreadable {
            assert!(place + 2 >= story.lines.len());
        }
    }
}

#[test]
fn scripts_of_uploads_can_be_read_and_lose_no_link() {
    let mut acknowledged = 0;
    for index in 0..50 {
        let story = uploads(seed_of(5, index));
        for line in &story.lines {
            let line = Line::parse(line).expect("a line that can be read");
            assert!(!matches!(line, Line::Drop(1 | 2)));
        }
        let output = String::from_utf8(run(&story.text())).unwrap();
        acknowledged += output.matches("UL_ACK_RESP").count();
    }
    assert!(acknowledged > 20, "only {acknowledged} files completed");
}
