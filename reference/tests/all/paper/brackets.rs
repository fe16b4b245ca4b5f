//! The fewest brackets, by writing every text with a few pairs of brackets.

use std::collections::BTreeMap;

use reference::paper::{to_bytes, to_text, Refusal};

use super::write;

const RELATION: &str = "PRIORITY<1";

/// All ways to part `count` over `places`.
fn partings(count: usize, places: usize) -> Vec<Vec<usize>> {
    if places == 1 {
        return vec![vec![count]];
    }
    let mut all = Vec::new();
    for first in 0..=count {
        for mut rest in partings(count - first, places - 1) {
            rest.insert(0, first);
            all.push(rest);
        }
    }
    all
}

/// So many relations with these connectives between them, so many "(" before
/// and ")" behind each.
fn text(connectives: usize, opened: &[usize], closed: &[usize]) -> String {
    let mut text = String::new();
    for (index, (open, close)) in opened.iter().zip(closed).enumerate() {
        if index > 0 {
            text += ["&&", "||"][connectives >> (index - 1) & 1];
        }
        text += &"(".repeat(*open);
        text += RELATION;
        text += &")".repeat(*close);
    }
    text
}

/// The fewest pairs of brackets with which each equation of so many relations
/// can be written, if that are at most `most` pairs.
fn fewest(relations: usize, most: usize) -> BTreeMap<Vec<u8>, usize> {
    let mut fewest = BTreeMap::new();
    for pairs in 0..=most {
        let partings = partings(pairs, relations);
        for connectives in 0..1 << (relations - 1) {
            for opened in &partings {
                for closed in &partings {
                    if let Ok(bytes) = to_bytes(text(connectives, opened, closed).as_bytes()) {
                        fewest.entry(bytes).or_insert(pairs);
                    }
                }
            }
        }
    }
    fewest
}

/// All equations of so many relations, as bytes.
fn equations(relations: usize) -> Vec<Vec<u8>> {
    if relations == 1 {
        return vec![vec![0xa0, 0x18, 0, 1, 1]];
    }
    let mut all = Vec::new();
    for left in 1..relations {
        for first in equations(left) {
            for second in equations(relations - left) {
                for code in [1, 2] {
                    all.push([&first[..], &second, &[code]].concat());
                }
            }
        }
    }
    all
}

#[test]
fn no_text_has_fewer_brackets() {
    for relations in 1..=6 {
        // The most that any needs: one for each relation but two.
        let most = relations.max(2) - 2;
        let fewest = fewest(relations, most);
        let equations = equations(relations);
        // Every equation can be written, and nothing else is.
        assert_eq!(fewest.len(), equations.len());
        for bytes in equations {
            let text = to_text(&bytes).unwrap();
            assert_eq!(to_bytes(&text), Ok(bytes.clone()));
            let pairs = text.iter().filter(|&&byte| byte == b'(').count();
            assert_eq!(Some(&pairs), fewest.get(&bytes));
        }
    }
}

/// Relations, then this many connectives of each kind in turn.
fn tower(relations: usize, codes: &[u8]) -> Vec<u8> {
    let mut bytes = [0x83, 0x22, 0, 0].repeat(relations);
    bytes.extend(codes.iter().cycle().take(relations - 1));
    bytes
}

#[test]
fn nested_to_the_sixteenth() {
    // All on the right of one another: each but the innermost in brackets.
    for codes in [&[1][..], &[2]] {
        let text = to_text(&tower(18, codes)).unwrap();
        assert!(text.windows(16).any(|part| part == [b')'; 16]));
        assert_eq!(write(&tower(19, codes)), "refused deeper");
    }
    // OR under AND under OR: every second one is in brackets.
    assert!(to_text(&tower(34, &[2, 1])).is_ok());
    assert_eq!(write(&tower(36, &[2, 1])), "refused deeper");
    // All from the left: none.
    let mut left = vec![0x83, 0x22, 0, 0];
    for _ in 0..50 {
        left.extend([0x83, 0x22, 0, 0, 2]);
    }
    assert_eq!(left.len(), 254);
    assert!(!to_text(&left).unwrap().contains(&b'('));
}

#[test]
fn refusals_of_bytes_in_their_order() {
    let marked = |mut bytes: Vec<u8>| {
        bytes.push(0);
        bytes
    };
    let string = |length: u8| [&[0x83, 0x22, 0, length][..], &vec![b'a'; length.into()]].concat();
    assert_eq!(write(&[]), "refused 8");
    assert_eq!(write(&[0]), "refused 8");
    assert_eq!(write(&[0; 2047]), "refused 8");
    assert_eq!(write(&[0; 2048]), "refused 33");
    assert_eq!(write(&[0x93, 0x22, 0, 1, b'm']), "refused 8");
    assert_eq!(write(&marked(string(1))), "refused mark");
    // A constant that ends in 0 is no end mark.
    assert_eq!(write(&[0x80, 0x18, 0, 1, 0]), "PRIORITY == 0");
    assert_eq!(write(&marked(tower(19, &[1]))), "refused mark");
    assert_eq!(write(&tower(19, &[1])), "refused deeper");
    // 60 relations have 299 bytes.
    assert_eq!(write(&tower(60, &[1])), "refused deeper");
    assert_eq!(write(&marked(tower(60, &[1]))), "refused mark");
    assert_eq!(to_text(&string(252)).unwrap().len(), 252 + 11);
    assert_eq!(write(&string(253)), "refused bytes");
    assert_eq!(write(&marked(string(252))), "refused mark");
    assert_eq!(write(&marked(string(253))), "refused mark");
    // The stack holds 100 results.
    assert_eq!(write(&tower(100, &[1])), "refused deeper");
    assert_eq!(write(&tower(101, &[1])), "refused 8");
    assert_eq!(to_text(&tower(60, &[1])), Err(Refusal::Deeper));
}

#[test]
fn the_longest_accepted_equation_is_too_long_for_a_text() {
    let mut bytes = [&[0x83, 0x22, 0, 250][..], &[b'a'; 250]].concat();
    while bytes.len() + 256 <= 2047 {
        bytes.extend([&[0x83, 0x22, 0, 251][..], &[b'a'; 251], &[1]].concat());
    }
    bytes.extend(std::iter::repeat(0).take(1));
    assert_eq!(bytes.len(), 2047);
    assert_eq!(write(&bytes), "refused mark");
    bytes.push(0);
    assert_eq!(write(&bytes), "refused 33");
}
