//! The first wrong place by trying everything: a beginning is good if some
//! completion of it is a text of the grammar, the reader must stop at the
//! first byte after which none is, and the reason must be what the
//! completions of the good part say.

use reference::paper::names::NAMES;
use reference::paper::{to_bytes, Reason, Refusal};

use super::grammar::bytes_of;
use super::nested;

/// Bytes that mean something, and some that mean nothing.
const ALPHABET: &[u8] = b" \t()#tT0259afg<=>!:\"\\x*?&|\x01\x7f";

/// Whether the tail, and then as many ")" as it takes, makes it a text.
fn closes(front: &[u8], tail: &str) -> bool {
    let open = front.iter().filter(|&&byte| byte == b'(').count().min(16);
    let mut text = [front, tail.as_bytes()].concat();
    for _ in 0..=open {
        if bytes_of(&text).is_some() {
            return true;
        }
        text.push(b')');
    }
    false
}

/// The rests of items that the text may end inside of.
fn rests(front: &[u8]) -> Vec<String> {
    let mut rests = Vec::new();
    for (item, _, _) in NAMES.iter().chain(&[("#0000", 0, 0), ("#FFFF", 0, 0)]) {
        for cut in 1..item.len() {
            let ends_so = cut <= front.len() && {
                let end = &front[front.len() - cut..];
                let begun = &item.as_bytes()[..cut];
                end.eq_ignore_ascii_case(begun) || item.starts_with('#') && end[0] == b'#'
            };
            if ends_so {
                rests.push(format!("{}==1", &item[cut..]));
            }
        }
    }
    rests
}

fn inside_item(front: &[u8]) -> bool {
    rests(front).iter().any(|rest| closes(front, rest))
}

/// Whether some text of the grammar begins so: one token is ended, if need
/// be, and what lacks behind it is added.
fn begins_a_text(front: &[u8]) -> bool {
    let tails = [
        "",
        "TITLE==1",
        "==1",
        "=1",
        "1",
        "4",
        "\"",
        "\"\"",
        "x00\"",
        "00\"",
        "0\"",
        "&TITLE==1",
        "|TITLE==1",
    ];
    tails.iter().any(|tail| closes(front, tail)) || inside_item(front)
}

/// The reason why this byte, or the end, may not stand behind a good front,
/// from what may.
fn reason(front: &[u8], next: Option<u8>) -> Reason {
    let may = |tail: &str| closes(front, tail);
    if may("") {
        return match next {
            Some(b'0'..=b'9') if may(":4") => Reason::Large,
            None => Reason::Bracket,
            _ => Reason::Connective,
        };
    }
    if may("&TITLE==1") || may("|TITLE==1") {
        return Reason::Connective;
    }
    if may("TITLE==1") {
        return match next {
            Some(b'(') => Reason::Deeper,
            _ => Reason::Item,
        };
    }
    if inside_item(front) {
        return Reason::Item;
    }
    // No width is 8, so this is a number.
    if may("8") {
        return match next {
            Some(b'"') => Reason::Order,
            _ => Reason::Constant,
        };
    }
    if may("4") {
        return Reason::Width;
    }
    if may("==1") || may("=1") {
        return Reason::Operator;
    }
    in_string(front, next)
}

fn in_string(front: &[u8], next: Option<u8>) -> Reason {
    let may = |tail: &str| closes(front, tail);
    if !may("\"") {
        // In an escape: only its last digit can be right and yet refused.
        return match next {
            Some(byte) if byte.is_ascii_hexdigit() && !may("x00\"") => Reason::Stars,
            _ => Reason::String,
        };
    }
    let stars = front.iter().filter(|&&byte| byte == b'*').count();
    match next {
        Some(b'*') if may("a\"") || stars == 4 => Reason::Stars,
        Some(b' '..=b'~') => Reason::Long,
        _ => Reason::String,
    }
}

/// The answer to a good front as it stands.
fn check_end(front: &[u8]) {
    let shown = String::from_utf8_lossy(front);
    let expected = match bytes_of(front) {
        Some(bytes) if bytes.len() > 256 => Err(Refusal::Bytes),
        Some(bytes) => Ok(bytes),
        None => Err(Refusal::Wrong(front.len() + 1, reason(front, None))),
    };
    assert_eq!(to_bytes(front), expected, "{shown}");
}

/// Tries each byte behind a good front, and goes on behind those that are
/// good there. Says how many fronts were good and how many bytes wrong.
fn try_behind(front: &[u8], bytes: &[u8], depth: usize) -> (usize, usize) {
    check_end(front);
    if depth == 0 {
        return (1, 0);
    }
    let (mut good, mut wrong) = (1, 0);
    for &byte in bytes {
        let longer = [front, &[byte]].concat();
        if begins_a_text(&longer) {
            let (more_good, more_wrong) = try_behind(&longer, bytes, depth - 1);
            good += more_good;
            wrong += more_wrong;
            continue;
        }
        wrong += 1;
        let expected = Err(Refusal::Wrong(longer.len(), reason(front, Some(byte))));
        for tail in ["", ")", "==1", "\"", "x", "( TITLE"] {
            let text = [&longer[..], tail.as_bytes()].concat();
            let shown = String::from_utf8_lossy(&text).to_string();
            assert_eq!(to_bytes(&text), expected, "{shown}");
        }
    }
    (good, wrong)
}

/// Fronts from which the search starts, one for each thing that may be wanted
/// and for each border.
const FRONTS: [&str; 48] = [
    "",
    "(",
    "( (",
    "F",
    "FILE_",
    "FILE_N",
    "file_s",
    "#",
    "#00",
    "#00a",
    "TITLE",
    "tITLE ",
    "TITLE=",
    "TITLE!",
    "TITLE<",
    "TITLE>",
    "TITLE<=",
    "TITLE< ",
    "TITLE==",
    "TITLE!= ",
    "TITLE==5",
    "TITLE==25",
    "TITLE==25:",
    "TITLE==65535:",
    "TITLE==65536:",
    "TITLE<429496729",
    "TITLE<0429496729",
    "TITLE<42949672",
    "TITLE==5:1",
    "TITLE==5 ",
    "TITLE==5&",
    "TITLE==5|",
    "TITLE==5&&",
    "TITLE==5||(",
    "(TITLE==5",
    "(TITLE==5)",
    "((TITLE==5)",
    "(TITLE==5&",
    "TITLE==\"",
    "TITLE==\"\\",
    "TITLE==\"\\x",
    "TITLE==\"\\x2",
    "TITLE==\"****",
    "TITLE==\"***\\x2",
    "TITLE==\"****\\x2",
    "TITLE==\"****\\x",
    "TITLE==\"a\"",
    "TITLE==\"a\"||TITLE!=\"***",
];

/// These, and some under as many brackets as there may be.
fn fronts() -> Vec<String> {
    let mut fronts: Vec<String> = FRONTS.iter().map(|front| front.to_string()).collect();
    for open in [15, 16] {
        fronts.push("(".repeat(open));
        fronts.push("(".repeat(open) + "TITLE==5");
        fronts.push(nested(open, "TITLE==5"));
        fronts.push(nested(open, "TITLE==5") + "&&");
    }
    fronts
}

#[test]
fn every_byte_behind_each_front() {
    let all: Vec<u8> = (0..=255).collect();
    let (mut good, mut wrong) = (0, 0);
    for front in fronts() {
        assert!(begins_a_text(front.as_bytes()), "{front}");
        let (some_good, some_wrong) = try_behind(front.as_bytes(), &all, 1);
        good += some_good;
        wrong += some_wrong;
    }
    assert_eq!(good + wrong, fronts().len() * 257);
}

#[test]
fn all_short_texts_behind_each_front() {
    let (mut good, mut wrong) = (0, 0);
    for front in fronts() {
        // Nearly every byte goes on in a string, and each level of brackets
        // is tried anew.
        let depth = match front.contains('"') || front.len() > 14 {
            true => 2,
            false => 4,
        };
        let (some_good, some_wrong) = try_behind(front.as_bytes(), ALPHABET, depth);
        good += some_good;
        wrong += some_wrong;
    }
    assert!(good > 10_000 && wrong > 100_000, "{good}, {wrong}");
}

#[test]
fn strings_about_as_long_as_they_may_be() {
    for stars in [0, 3, 4] {
        for length in [253, 254, 255] {
            let string = "*".repeat(stars) + &"a".repeat(length - stars);
            let front = format!("TITLE==\"{string}");
            try_behind(front.as_bytes(), ALPHABET, 2);
        }
    }
}

#[test]
fn every_reason_is_met() {
    let mut met: Vec<Reason> = Vec::new();
    for front in fronts() {
        for byte in ALPHABET.iter().map(|&byte| Some(byte)).chain([None]) {
            let text = [front.as_bytes(), &byte.map_or(vec![], |byte| vec![byte])].concat();
            if let Err(Refusal::Wrong(_, reason)) = to_bytes(&text) {
                met.push(reason);
            }
        }
    }
    // Only `long` is met in another test.
    let lacking = Reason::ALL.iter().filter(|reason| !met.contains(reason));
    assert_eq!(lacking.collect::<Vec<_>>(), [&Reason::Long]);
}
