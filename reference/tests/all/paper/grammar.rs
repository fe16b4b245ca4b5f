//! The grammar once more, rule by rule: each rule gives every place where it
//! may end, with the bytes that it stands for. It knows nothing of wrong
//! places, and is too slow for anything but short texts.

use reference::paper::names::NAMES;

/// The places where a rule may end, each with the bytes up to there.
type Ends = Vec<(usize, Vec<u8>)>;

/// The bytes of a text of the grammar, however many they are.
pub fn bytes_of(text: &[u8]) -> Option<Vec<u8>> {
    let mut whole = sum(text, 0, 0)
        .into_iter()
        .filter(|(end, _)| blanks(text, *end) == text.len());
    let found = whole.next().map(|(_, bytes)| bytes);
    assert!(whole.next().is_none(), "a text means one thing");
    found
}

/// The place behind the blanks.
fn blanks(text: &[u8], at: usize) -> usize {
    let rest = text[at..].iter();
    at + rest
        .take_while(|&&byte| byte == b' ' || byte == b'\t')
        .count()
}

/// The place behind blanks and this token, if it stands there.
fn token(text: &[u8], at: usize, wanted: &str) -> Option<usize> {
    let at = blanks(text, at);
    text[at..]
        .starts_with(wanted.as_bytes())
        .then_some(at + wanted.len())
}

fn sum(text: &[u8], at: usize, open: usize) -> Ends {
    joined(text, "||", 2, product(text, at, open), |at| {
        product(text, at, open)
    })
}

fn product(text: &[u8], at: usize, open: usize) -> Ends {
    joined(text, "&&", 1, factor(text, at, open), |at| {
        factor(text, at, open)
    })
}

/// first { sign next }, from the left.
fn joined(text: &[u8], sign: &str, code: u8, first: Ends, next: impl Fn(usize) -> Ends) -> Ends {
    let mut all = first.clone();
    let mut last = first;
    while !last.is_empty() {
        let mut longer = Ends::new();
        for (end, left) in last {
            if let Some(at) = token(text, end, sign) {
                for (end, right) in next(at) {
                    longer.push((end, [&left[..], &right, &[code]].concat()));
                }
            }
        }
        all.extend(longer.clone());
        last = longer;
    }
    all
}

fn factor(text: &[u8], at: usize, open: usize) -> Ends {
    let mut ends = relation(text, at);
    if let Some(at) = token(text, at, "(") {
        if open < 16 {
            for (end, bytes) in sum(text, at, open + 1) {
                if let Some(end) = token(text, end, ")") {
                    ends.push((end, bytes));
                }
            }
        }
    }
    ends
}

fn relation(text: &[u8], at: usize) -> Ends {
    let mut ends = Ends::new();
    for (end, id) in items(text, at) {
        for (code, sign) in ["==", ">", "<", "!=", ">=", "<="].iter().enumerate() {
            if let Some(at) = token(text, end, sign) {
                let mut constants = numbers(text, at, id);
                if *sign == "==" || *sign == "!=" {
                    constants.extend(string(text, at));
                }
                for (end, kind, constant) in constants {
                    let head = [0x80 + 16 * code as u8 + kind, id as u8, (id >> 8) as u8];
                    let length = [constant.len() as u8];
                    ends.push((end, [&head[..], &length, &constant].concat()));
                }
            }
        }
    }
    ends
}

fn items(text: &[u8], at: usize) -> Vec<(usize, u16)> {
    let at = blanks(text, at);
    let mut found = Vec::new();
    for (name, id, _) in NAMES {
        let end = at + name.len();
        if text.len() >= end && text[at..end].eq_ignore_ascii_case(name.as_bytes()) {
            found.push((end, id));
        }
    }
    if text.len() >= at + 5 && text[at] == b'#' {
        if let Some(id) = hex(&text[at + 1..at + 5]) {
            found.push((at + 5, id));
        }
    }
    found
}

/// The value of hex digits of either case.
fn hex(digits: &[u8]) -> Option<u16> {
    let plain = digits.iter().all(u8::is_ascii_hexdigit);
    let digits = std::str::from_utf8(digits).ok()?;
    u16::from_str_radix(digits, 16).ok().filter(|_| plain)
}

type Constants = Vec<(usize, u8, Vec<u8>)>;

/// Every front of the digits is a number, with or without its width.
fn numbers(text: &[u8], at: usize, id: u16) -> Constants {
    let at = blanks(text, at);
    let mut found = Constants::new();
    let mut end = at;
    let mut value = 0u64;
    while end < text.len() && text[end].is_ascii_digit() {
        value = value * 10 + u64::from(text[end] - b'0');
        end += 1;
        if value > 4_294_967_295 {
            break;
        }
        let holds = |width: usize| value < 1 << (8 * width);
        let usual = NAMES.iter().find(|(_, named, _)| *named == id);
        let usual = usual.map_or(1, |(_, _, width)| *width);
        let taken = [1, 2, 4]
            .into_iter()
            .find(|width| holds(*width) && usual <= *width);
        let bytes = |width: usize| value.to_le_bytes()[..width].to_vec();
        found.push((end, 0, bytes(taken.expect("four bytes hold it"))));
        for width in [1, 2, 4] {
            if text[end..].starts_with(format!(":{width}").as_bytes()) && holds(width) {
                found.push((end + 2, 0, bytes(width)));
            }
        }
    }
    found
}

fn string(text: &[u8], at: usize) -> Constants {
    let mut at = match token(text, at, "\"") {
        Some(at) => at,
        None => return Vec::new(),
    };
    let mut bytes = Vec::new();
    loop {
        match text[at..] {
            [b'"', ..] => break,
            [b'\\', escaped @ (b'"' | b'\\'), ..] => {
                bytes.push(escaped);
                at += 2;
            }
            [b'\\', b'x', high, low, ..] => match hex(&[high, low]) {
                Some(value) => {
                    bytes.push(value as u8);
                    at += 4;
                }
                None => return Vec::new(),
            },
            [b'\\', ..] => return Vec::new(),
            [byte @ 0x20..=0x7e, ..] => {
                bytes.push(byte);
                at += 1;
            }
            _ => return Vec::new(),
        }
    }
    let stars = bytes.iter().filter(|&&byte| byte == b'*').count();
    match bytes.len() <= 255 && stars <= 4 {
        true => vec![(at + 1, 3, bytes)],
        false => Vec::new(),
    }
}
