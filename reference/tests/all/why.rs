//! Why a file is listed: the rule by hand and by trying everything, and the
//! files that fall beyond the selection.

use crate::common::{above, hex, select, upload, Desk};
use reference::draft::Draft;
use reference::equation::Equation;
use reference::generator::relation;
use reference::server::Sizes;
use reference::why::{decided, truths, why, Verdict, Why};

const AND: u8 = 1;
const OR: u8 = 2;

/// A relation that is true on files with an item of that number.
fn has(number: usize) -> Vec<u8> {
    relation(0x83, 0x100 + number as u16, b"*")
}

/// A file on which exactly the relations with these truths are true.
fn file(truths: &[bool]) -> Vec<u8> {
    let mut draft = Draft::new();
    for (number, _) in truths.iter().enumerate().filter(|(_, truth)| **truth) {
        draft = draft.with_item(0x100 + number as u16, b"x");
    }
    draft.bytes()
}

/// All equations of that many relations, the first having that number.
fn all_equations(first: usize, count: usize) -> Vec<Vec<u8>> {
    if count == 1 {
        return vec![has(first)];
    }
    let mut all = Vec::new();
    for left in 1..count {
        for one in all_equations(first, left) {
            for other in all_equations(first + left, count - left) {
                for connective in [AND, OR] {
                    all.push([&one[..], &other[..], &[connective]].concat());
                }
            }
        }
    }
    all
}

fn all_truths(count: usize) -> Vec<Vec<bool>> {
    let bits = |number: usize| (0..count).map(|bit| number >> bit & 1 == 1).collect();
    (0..1 << count).map(bits).collect()
}

/// Whether all truths that agree on these relations, counted from 1, have that
/// outcome.
fn settles(outcomes: &[(Vec<bool>, bool)], truths: &[bool], named: &[usize]) -> bool {
    let (_, outcome) = outcomes.iter().find(|(other, _)| other == truths).unwrap();
    let agrees = |other: &[bool]| {
        named
            .iter()
            .all(|&name| other[name - 1] == truths[name - 1])
    };
    let mut agreeing = outcomes.iter().filter(|(other, _)| agrees(other));
    agreeing.all(|(_, other)| other == outcome)
}

#[test]
fn every_equation_of_up_to_five_relations_with_every_truth() {
    let mut cases = 0;
    for count in 1..=5 {
        for bytes in all_equations(0, count) {
            let equation = Equation::parse(&bytes).unwrap();
            let mut outcomes = Vec::new();
            for truths in all_truths(count) {
                let outcome = equation.holds(&file(&truths));
                outcomes.push((truths, outcome));
            }
            for (given, outcome) in &outcomes {
                assert_eq!(&truths(&equation, &file(given)), given);
                let (truth, named) = decided(equation.symbols(), given);
                assert_eq!(truth, *outcome);
                right_reasons(&outcomes, given, *outcome, &named);
                cases += 1;
            }
        }
    }
    assert_eq!(cases, 2 + 2 * 4 + 8 * 8 + 40 * 16 + 224 * 32);
}

fn right_reasons(outcomes: &[(Vec<bool>, bool)], given: &[bool], outcome: bool, named: &[usize]) {
    assert!(named.windows(2).all(|two| two[0] < two[1]), "rising");
    assert!(named.iter().all(|&name| given[name - 1] == outcome));
    // No change to the truth of unnamed ones can change the outcome.
    assert!(settles(outcomes, given, named));
    // None can be left out.
    for left_out in named {
        let fewer: Vec<usize> = named
            .iter()
            .copied()
            .filter(|name| name != left_out)
            .collect();
        assert!(!settles(outcomes, given, &fewer));
    }
}

/// What is told of a file with these truths.
fn reasons(equation: &[u8], given: &[bool]) -> Vec<usize> {
    let equation = Equation::parse(equation).unwrap();
    decided(equation.symbols(), given).1
}

#[test]
fn the_rule_by_hand() {
    let and = [&has(0)[..], &has(1), &[AND]].concat();
    assert_eq!(reasons(&and, &[true, true]), [1, 2]);
    assert_eq!(reasons(&and, &[true, false]), [2]);
    assert_eq!(reasons(&and, &[false, true]), [1]);
    assert_eq!(reasons(&and, &[false, false]), [1]);
    let or = [&has(0)[..], &has(1), &[OR]].concat();
    assert_eq!(reasons(&or, &[true, true]), [1]);
    assert_eq!(reasons(&or, &[true, false]), [1]);
    assert_eq!(reasons(&or, &[false, true]), [2]);
    assert_eq!(reasons(&or, &[false, false]), [1, 2]);
    // (1 AND 2) OR (3 AND (4 OR 5))
    let mixed = [
        &has(0)[..],
        &has(1),
        &[AND],
        &has(2),
        &has(3),
        &has(4),
        &[OR, AND, OR],
    ]
    .concat();
    assert_eq!(reasons(&mixed, &[true, false, true, false, true]), [3, 5]);
    assert_eq!(
        reasons(&mixed, &[true, false, true, false, false]),
        [2, 4, 5]
    );
    assert_eq!(reasons(&mixed, &[true, true, true, true, true]), [1, 2]);
    assert_eq!(reasons(&mixed, &[false, false, false, true, true]), [1, 3]);
    // A mark changes nothing.
    let marked = [&mixed[..], &[0]].concat();
    assert_eq!(reasons(&marked, &[true, true, true, true, true]), [1, 2]);
}

fn told(desk: &Desk, equation: &[u8], number: u32) -> Result<Why, u8> {
    why(
        &desk.server.store,
        desk.server.sizes.maxsel,
        equation,
        number,
    )
}

#[test]
fn refusals_in_order() {
    let mut desk = Desk::opened();
    desk.store(1, &Draft::new().bytes());
    desk.hear(1, &upload(80));
    for number in [0, 1, 2, 3, u32::MAX] {
        assert_eq!(told(&desk, &[0; 2048], number), Err(33));
        assert_eq!(told(&desk, &[0; 2047], number), Err(8));
        assert_eq!(told(&desk, b"", number), Err(8));
        assert_eq!(told(&desk, b"\x93\x22\0\x01m", number), Err(8));
    }
    for (number, refusal) in [(0, 4), (2, 11), (3, 4), (u32::MAX, 4)] {
        assert_eq!(told(&desk, &above(0), number), Err(refusal));
    }
    let matched = Why {
        verdict: Verdict::Matched,
        reasons: vec![1],
    };
    assert_eq!(told(&desk, &above(0), 1), Ok(matched));
}

#[test]
fn files_beyond_the_selection() {
    for maxsel in 1..=5 {
        let mut desk = Desk::sized(Sizes {
            blocks: 20,
            files: 12,
            sessions: 1,
            maxsel,
        });
        desk.open(1);
        for number in 0..10u8 {
            let mut draft = Draft::new();
            draft.set(0x08, &[number % 2]);
            desk.store(1, &draft.bytes());
        }
        // Every other file matches: 2, 4, 6, 8, 10.
        let odd_type = hex("80 0800 01 01");
        desk.hear(1, &select(&odd_type));
        let selected = desk.server.sessions[0].clone().unwrap().selection.numbers;
        for number in 1..=10 {
            let why = told(&desk, &odd_type, number).unwrap();
            let older = (number as usize - 1) / 2;
            let verdict = match number % 2 {
                1 => Verdict::Unmatched,
                _ if older < maxsel => Verdict::Matched,
                _ => Verdict::Beyond(older),
            };
            assert_eq!(why.verdict, verdict, "{number} of {maxsel}");
            let is_selected = selected.contains(&number);
            assert_eq!(is_selected, why.verdict == Verdict::Matched);
            assert_eq!(why.reasons, [1]);
        }
    }
}

#[test]
fn older_is_by_upload_time_and_not_by_number() {
    let mut desk = Desk::sized(Sizes {
        blocks: 20,
        files: 12,
        sessions: 2,
        maxsel: 1,
    });
    desk.open(1);
    desk.open(2);
    let file = Draft::new().bytes();
    desk.hear(1, &upload(80));
    desk.store(2, &file);
    let rest = [&hex("5000")[..], &file, &hex("0001")].concat();
    assert_eq!(desk.hear(1, &rest), ["UL_ACK_RESP "]);
    assert_eq!(told(&desk, &above(0), 2).unwrap().verdict, Verdict::Matched);
    assert_eq!(
        told(&desk, &above(0), 1).unwrap().verdict,
        Verdict::Beyond(1)
    );
}
