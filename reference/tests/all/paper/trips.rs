//! There and back: random texts and bytes, their truth, and the lent output.

use reference::draft::Draft;
use reference::equation::{evaluate, Equation};
use reference::generator::paper::{damaged_at_each_byte, equation_bytes, text};
use reference::generator::seed_of;
use reference::paper::{lend, to_bytes, to_text, Reason, Refusal, MOST};
use reference::random::Random;

use super::grammar::bytes_of;
use super::write;

#[test]
fn texts_are_turned_as_the_grammar_says() {
    let mut accepted = 0;
    for index in 0..4000 {
        let mut random = Random::new(seed_of(21, index));
        let text = text(&mut random);
        let expected = bytes_of(&text).expect("a text of the grammar");
        match to_bytes(&text) {
            Ok(bytes) => {
                assert_eq!(bytes, expected);
                assert!(Equation::parse(&bytes).is_ok());
                accepted += 1;
            }
            refused => {
                assert_eq!(refused, Err(Refusal::Bytes));
                assert!(expected.len() > MOST);
            }
        }
    }
    assert!(accepted > 3900, "{accepted}");
}

#[test]
fn damaged_texts_are_judged_as_the_grammar_says() {
    let (mut good, mut wrong) = (0, 0);
    for index in 0..150 {
        let mut random = Random::new(seed_of(22, index));
        let text = text(&mut random);
        for damaged in damaged_at_each_byte(&mut random, &text) {
            match to_bytes(&damaged) {
                Err(Refusal::Wrong(place, _)) => {
                    assert!((1..=damaged.len() + 1).contains(&place));
                    assert_eq!(bytes_of(&damaged), None);
                    wrong += 1;
                    // The bytes behind the place do not count.
                    if place <= damaged.len() {
                        let front = to_bytes(&damaged[..place]);
                        assert_eq!(front, to_bytes(&damaged));
                    }
                }
                Err(refusal) => assert_eq!(refusal, Refusal::Bytes),
                Ok(bytes) => {
                    assert_eq!(bytes_of(&damaged), Some(bytes));
                    good += 1;
                }
            }
        }
    }
    assert!(good > 1000 && wrong > 10_000, "{good}, {wrong}");
}

#[test]
fn written_texts_turn_into_the_same_bytes() {
    let mut written = 0;
    for index in 0..4000 {
        let bytes = equation_bytes(&mut Random::new(seed_of(23, index)));
        match to_text(&bytes) {
            Ok(text) => {
                assert_eq!(to_bytes(&text), Ok(bytes.clone()));
                assert_eq!(bytes_of(&text), Some(bytes));
                // One blank on each side of operators and connectives.
                assert!(!text.contains(&b'\t') && text.iter().all(|byte| *byte < 0x7f));
                written += 1;
            }
            Err(refusal) => assert!(matches!(refusal, Refusal::Deeper | Refusal::Bytes)),
        }
    }
    assert!(written > 2500, "{written}");
}

#[test]
fn a_written_text_stays_as_it_is() {
    for index in 0..1000 {
        let text = text(&mut Random::new(seed_of(24, index)));
        if let Ok(bytes) = to_bytes(&text) {
            let written = to_text(&bytes).expect("a text has no mark and is not too deep");
            assert_eq!(to_bytes(&written), Ok(bytes));
            let brackets = |text: &[u8]| text.iter().filter(|&&byte| byte == b'(').count();
            // A bracket may stand in a string, as often in both or escaped.
            if !text.contains(&b'\\') {
                assert!(brackets(&written) <= brackets(&text));
            }
        }
    }
}

#[test]
fn how_constants_are_written() {
    for (bytes, text) in [
        (
            &[0xa0, 0x04, 0, 4, 0x40, 0x1f, 0, 0][..],
            "FILE_SIZE < 8000",
        ),
        (&[0xd0, 0x04, 0, 1, 5], "FILE_SIZE <= 5:1"),
        (&[0xc0, 0x04, 0, 2, 5, 0], "FILE_SIZE >= 5:2"),
        (&[0x90, 0x18, 0, 4, 5, 0, 0, 0], "PRIORITY > 5:4"),
        (&[0x90, 0x18, 0, 2, 0, 1], "PRIORITY > 256"),
        (&[0x90, 0x18, 0, 4, 0, 1, 0, 0], "PRIORITY > 256:4"),
        (&[0x90, 0x09, 0, 2, 5, 0], "BODY_CHECKSUM > 5"),
        (&[0x90, 0x09, 0, 1, 5], "BODY_CHECKSUM > 5:1"),
        (&[0x90, 0, 0x18, 1, 5], "#1800 > 5"),
        (&[0xb0, 0xef, 0xbe, 1, 0], "#beef != 0"),
        (&[0x80, 0, 0, 4, 255, 255, 255, 255], "#0000 == 4294967295"),
        (
            &[0x83, 0x22, 0, 3, b'"', b'\\', b'*'],
            "TITLE == \"\\\"\\\\*\"",
        ),
        (
            &[0xb3, 0x26, 0, 5, 0x1f, 0x20, 0x7e, 0x7f, 0xff],
            "USER_FILE_NAME != \"\\x1f ~\\x7f\\xff\"",
        ),
    ] {
        assert_eq!(write(bytes), text);
        assert_eq!(to_bytes(text.as_bytes()), Ok(bytes.to_vec()));
    }
}

/// The truth of a text by its words: `T` for a relation that holds and `F` for
/// one that does not, AND before OR, brackets first.
fn truth(words: &str) -> bool {
    let mut words = words.to_string();
    loop {
        let before = words.clone();
        for (from, to) in [("(T)", "T"), ("(F)", "F")] {
            words = words.replace(from, to);
        }
        for (from, to) in [("T&&T", "T"), ("T&&F", "F"), ("F&&T", "F"), ("F&&F", "F")] {
            words = words.replacen(from, to, 1);
        }
        if words != before {
            continue;
        }
        // Only where no AND is left beside it.
        for side in ["T||T", "T||F", "F||T", "F||F"] {
            let places: Vec<usize> = words.match_indices(side).map(|(at, _)| at).collect();
            for at in places {
                let free = |near: Option<char>| near != Some('&');
                let behind = words[at + 4..].chars().next();
                if free(words[..at].chars().last()) && free(behind) {
                    let result = if side == "F||F" { "F" } else { "T" };
                    words.replace_range(at..at + 4, result);
                    break;
                }
            }
        }
        if words == before {
            break;
        }
    }
    assert!(words == "T" || words == "F", "{words}");
    words == "T"
}

/// A text of the letters T and F.
fn letters(random: &mut Random, size: usize) -> String {
    if random.chance(1, 3) {
        return format!("({})", letters(random, size - usize::from(size > 1)));
    }
    if size == 1 {
        return random.pick(&["T", "F"]).to_string();
    }
    let left = random.between(1, size - 1);
    let sign = *random.pick(&["&&", "||"]);
    letters(random, left) + sign + &letters(random, size - left)
}

#[test]
fn the_truth_of_a_text_is_that_of_its_bytes() {
    let file = Draft::new().with_item(0x22, b"rover").bytes();
    let mut random = Random::new(25);
    let mut tried = 0;
    for _ in 0..2000 {
        let size = random.between(1, 8);
        let letters = letters(&mut random, size);
        let text = letters
            .replace('T', "TITLE == \"r*\"")
            .replace('F', "TITLE == \"x\"")
            .replace("TITLE", "#0022");
        match to_bytes(text.as_bytes()) {
            Ok(bytes) => {
                assert_eq!(evaluate(&bytes, &file), Ok(truth(&letters)), "{text}");
                tried += 1;
            }
            Err(refusal) => assert!(matches!(refusal, Refusal::Wrong(_, Reason::Deeper))),
        }
    }
    assert!(tried > 1900, "{tried}");
}

#[test]
fn a_refusal_writes_nothing() {
    let mut output = [0xe7; 8];
    let bytes = to_bytes(b"PRIORITY < 5");
    assert_eq!(lend(bytes.clone(), &mut output), Ok(5));
    assert_eq!(output, [0xa0, 0x18, 0, 1, 5, 0xe7, 0xe7, 0xe7]);
    let mut output = [0xe7; 4];
    assert_eq!(lend(bytes, &mut output), Err(Refusal::Number(33)));
    // The output that is too short comes last.
    let wrong = Refusal::Wrong(1, Reason::Item);
    assert_eq!(lend(to_bytes(b""), &mut []), Err(wrong));
    assert_eq!(lend(to_text(&[0]), &mut output), Err(Refusal::Number(8)));
    assert_eq!(
        lend(to_text(&[0x83, 0x22, 0, 0]), &mut output),
        Err(Refusal::Number(33))
    );
    assert_eq!(output, [0xe7; 4]);
}
