//! Equations: each refusal, each relation, and the match of text.

use reference::draft::Draft;
use reference::equation::{evaluate, matches, Equation, Fault};
use reference::generator;
use reference::random::Random;

fn relation(code: u8, id: u16, constant: &[u8]) -> Vec<u8> {
    let mut bytes = vec![code];
    bytes.extend(id.to_le_bytes());
    bytes.push(constant.len() as u8);
    bytes.extend(constant);
    bytes
}

/// A relation of four bytes: text of length 0.
const EMPTY_TEXT: [u8; 4] = [0x83, 0x22, 0x00, 0x00];

fn joined(parts: &[&[u8]]) -> Vec<u8> {
    parts.concat()
}

fn fault(bytes: &[u8]) -> Option<Fault> {
    Equation::parse(bytes).err()
}

/// The refusal's number, 0 for none.
fn number(bytes: &[u8]) -> u8 {
    evaluate(bytes, &[]).err().unwrap_or(0)
}

fn titled(title: &[u8]) -> Vec<u8> {
    Draft::new().with_item(0x22, title).bytes()
}

#[test]
fn examples_p9_to_p12() {
    assert_eq!(number(&relation(0x93, 0x22, b"m")), 8);
    assert!(matches(b"*land*", b"Landrover"));
    assert!(!matches(b"?", b""));
    assert_eq!(number(&relation(0x83, 0x22, b"*****")), 8);
    assert_eq!(number(&[]), 8);
}

#[test]
fn every_first_byte() {
    for code in 0..=255u8 {
        let accepted_number = [0x80, 0x90, 0xa0, 0xb0, 0xc0, 0xd0].contains(&code);
        let accepted_text = [0x83, 0xb3].contains(&code);
        for length in 0..=255 {
            let bytes = relation(code, 0x12, &vec![b'a'; length]);
            let fits = accepted_number && [1, 2, 4].contains(&length) || accepted_text;
            let expected = if fits { 0 } else { 8 };
            assert_eq!(number(&bytes), expected, "code {code}, length {length}");
        }
    }
}

#[test]
fn every_byte_behind_two_relations() {
    for code in 0..=255u8 {
        let bytes = joined(&[&EMPTY_TEXT, &EMPTY_TEXT, &[code]]);
        let expected = if code == 1 || code == 2 { 0 } else { 8 };
        assert_eq!(number(&bytes), expected, "code {code}");
    }
    for code in 0..=255u8 {
        let bytes = joined(&[&EMPTY_TEXT, &[code]]);
        let expected = if code == 0 { 0 } else { 8 };
        assert_eq!(number(&bytes), expected, "code {code}");
    }
}

#[test]
fn each_fault_by_its_name() {
    let faults: [(&[u8], Fault); 13] = [
        (&[0x03], Fault::UnknownCode),
        (&[0x7f], Fault::UnknownCode),
        (&[0xe0, 0x12, 0, 1, 0], Fault::UnknownComparison),
        (&[0xf3, 0x12, 0, 1, 0], Fault::UnknownComparison),
        (&[0x84, 0x12, 0, 1, 0], Fault::UnknownKind),
        (&[0x93, 0x22, 0, 1, b'm'], Fault::OrderOnText),
        (&[0x80, 0x12, 0, 3, 0, 0, 0], Fault::WrongLength),
        (b"\x83\x22\x00\x05*****", Fault::TooManyStars),
        (&[0x80, 0x12, 0, 4, 0, 0, 0], Fault::BytesRunOut),
        (&[0x83, 0x22, 0, 0, 0, 0], Fault::BytesAfterEnd),
        (&[0x83, 0x22, 0, 0, 1], Fault::StackEmpty),
        (&[], Fault::NotOneResult),
        (&[0x83, 0x22, 0, 0, 0x83, 0x22, 0, 0], Fault::NotOneResult),
    ];
    for (bytes, expected) in faults {
        assert_eq!(fault(bytes), Some(expected));
        assert_eq!(number(bytes), 8);
    }
    let full = EMPTY_TEXT.repeat(101);
    assert_eq!(fault(&full), Some(Fault::StackFull));
    assert_eq!(fault(&[0; 2048]), Some(Fault::TooLong));
    let numbers: Vec<u8> = Fault::ALL.iter().map(|fault| fault.number()).collect();
    assert_eq!(numbers, [33, 8, 8, 8, 8, 8, 8, 8, 8, 8, 8, 8]);
}

#[test]
fn the_end_mark() {
    assert_eq!(number(&joined(&[&EMPTY_TEXT])), 0);
    assert_eq!(number(&joined(&[&EMPTY_TEXT, &[0]])), 0);
    assert_eq!(number(&joined(&[&EMPTY_TEXT, &[0, 0]])), 8);
    assert_eq!(number(&joined(&[&EMPTY_TEXT, &[0], &EMPTY_TEXT, &[1]])), 8);
    assert_eq!(number(&[0]), 8);
    assert_eq!(number(&joined(&[&EMPTY_TEXT, &EMPTY_TEXT, &[0]])), 8);
    assert_eq!(number(&joined(&[&EMPTY_TEXT, &[0], &EMPTY_TEXT])), 8);
}

#[test]
fn every_beginning_of_an_equation() {
    let upload_time = relation(0x90, 0x12, &[1, 2, 3, 4]);
    let title = relation(0xb3, 0x22, b"*rover");
    let whole = joined(&[&upload_time, &title, &[1], &[0]]);
    for length in 0..whole.len() {
        let bytes = &whole[..length];
        // The first relation alone, or all but the mark.
        let accepted = length == 8 || length == whole.len() - 1;
        assert_eq!(number(bytes) == 0, accepted, "length {length}");
    }
}

#[test]
fn lengths_above_2_047_are_33_whatever_they_hold() {
    // 511 relations of four bytes fill 2,044.
    let mut longest = relation(0x83, 0x22, &[b'a'; 255]).repeat(7);
    longest.extend([2; 6]);
    longest.extend(relation(0x83, 0x22, &[b'b'; 223]));
    longest.extend([1]);
    assert_eq!(longest.len(), 2047);
    assert_eq!(number(&longest), 0);
    longest.push(0);
    assert_eq!(number(&longest), 33);
    assert_eq!(number(&[0xff; 2047]), 8);
    assert_eq!(number(&[0xff; 2048]), 33);
}

#[test]
fn a_stack_of_100() {
    for relations in 1..=120usize {
        let mut bytes = EMPTY_TEXT.repeat(relations);
        bytes.extend(vec![1; relations - 1]);
        let expected = if relations <= 100 { 0 } else { 8 };
        assert_eq!(number(&bytes), expected, "{relations} relations");
    }
    // The 101st push is refused even where an AND follows at once.
    let mut bytes = EMPTY_TEXT.repeat(101);
    bytes.extend([1; 100]);
    assert_eq!(fault(&bytes), Some(Fault::StackFull));
    // More relations than 100 are no fault where the stack stays low.
    let mut low = EMPTY_TEXT.to_vec();
    for _ in 0..400 {
        low.extend(EMPTY_TEXT);
        low.push(2);
    }
    assert_eq!(low.len(), 2004);
    assert_eq!(number(&low), 0);
}

#[test]
fn the_depth_cannot_be_refused_in_256_bytes() {
    let bytes = EMPTY_TEXT.repeat(64);
    assert_eq!(bytes.len(), 256);
    assert_eq!(fault(&bytes), Some(Fault::NotOneResult));
}

#[test]
fn stars_are_counted_in_each_text_constant() {
    assert_eq!(number(&relation(0x83, 0x22, b"a*b*c*d*e")), 0);
    assert_eq!(number(&relation(0x83, 0x22, b"****")), 0);
    assert_eq!(number(&relation(0xb3, 0x22, b"a*b*c*d*e*")), 8);
    assert_eq!(number(&relation(0x80, 0x22, b"****")), 0);
    let two = joined(&[
        &relation(0x83, 0x22, b"****"),
        &relation(0x83, 0x22, b"****"),
        &[1],
    ]);
    assert_eq!(number(&two), 0);
    // Both operands must be well formed, whatever the first one's truth.
    let second = joined(&[
        &relation(0x83, 0x22, b"****"),
        &relation(0x83, 0x22, b"*****"),
        &[2],
    ]);
    assert_eq!(number(&second), 8);
}

/// The six comparisons on numbers, as the paper orders them.
fn compare(code: u8, left: u32, right: u32) -> bool {
    match code {
        0 => left == right,
        1 => left > right,
        2 => left < right,
        3 => left != right,
        4 => left >= right,
        _ => left <= right,
    }
}

#[test]
fn numbers_compare_by_value_whatever_their_widths() {
    let values = [
        0u32,
        1,
        2,
        127,
        128,
        255,
        256,
        257,
        65_535,
        65_536,
        u32::MAX,
    ];
    for left in values {
        for right in values {
            for width in [1, 2, 4] {
                for constant_width in [1, 2, 4] {
                    compare_one(left, width, right, constant_width);
                }
            }
        }
    }
}

fn compare_one(left: u32, width: usize, right: u32, constant_width: usize) {
    let fits = |value: u32, width: usize| width == 4 || value >> (8 * width) == 0;
    if !fits(left, width) || !fits(right, constant_width) {
        return;
    }
    let file = titled(&left.to_le_bytes()[..width]);
    for code in 0..6 {
        let constant = &right.to_le_bytes()[..constant_width];
        let bytes = relation(0x80 | code << 4, 0x22, constant);
        assert_eq!(evaluate(&bytes, &file), Ok(compare(code, left, right)));
    }
}

#[test]
fn the_file_stands_on_the_left() {
    let file = titled(&[6]);
    assert_eq!(evaluate(&relation(0x90, 0x22, &[5]), &file), Ok(true));
    assert_eq!(evaluate(&relation(0xa0, 0x22, &[5]), &file), Ok(false));
}

#[test]
fn absent_items_and_items_that_are_no_number() {
    for code in [0x80, 0x90, 0xa0, 0xb0, 0xc0, 0xd0] {
        for length in (0..=255).filter(|length| ![1, 2, 4].contains(length)) {
            let file = titled(&vec![0; length]);
            assert_eq!(evaluate(&relation(code, 0x22, &[0]), &file), Ok(false));
        }
        let absent = relation(code, 0x23, &[0]);
        assert_eq!(evaluate(&absent, &titled(b"a")), Ok(false));
    }
    for code in [0x83, 0xb3] {
        let absent = relation(code, 0x23, b"*");
        assert_eq!(evaluate(&absent, &titled(b"a")), Ok(false));
        let zero = relation(code, 0, b"*");
        assert_eq!(evaluate(&zero, &titled(b"a")), Ok(false));
        for file in [&b""[..], b"\xaa", b"\xaa\x55", b"not a header"] {
            assert_eq!(evaluate(&absent, file), Ok(false));
        }
    }
}

/// A header of bytes written by hand: AA 55, a destination "A", an unlisted
/// item, a destination "B" and the end mark. The body behind it would be a
/// destination "C" if the header went on.
const LETTER: [u8; 20] = [
    0xaa, 0x55, 0x14, 0, 1, b'A', 0x30, 0, 0, 0x14, 0, 1, b'B', 0, 0, 0, 0x14, 0, 1, b'C',
];

#[test]
fn a_letter_to_two_people() {
    for (code, constant, expected) in [
        (0x83, &b"A"[..], true),
        (0xb3, b"A", true),
        (0x83, b"B", true),
        (0xb3, b"B", true),
        (0x83, b"a", true),
        (0x83, b"b", true),
        (0x83, b"?", true),
        // Every item meets "?", so none is not equal to it.
        (0xb3, b"?", false),
        (0x83, b"C", false),
        (0xb3, b"C", true),
        (0x83, b"AB", false),
        (0x83, b"", false),
        (0xb3, b"*", false),
    ] {
        let asked = relation(code, 0x14, constant);
        assert_eq!(evaluate(&asked, &LETTER), Ok(expected), "{asked:x?}");
    }
    // "So a file to A and B is both equal to A and not equal to A."
    let (to_a, to_b) = (relation(0x83, 0x14, b"A"), relation(0x83, 0x14, b"B"));
    let not_to_a = relation(0xb3, 0x14, b"A");
    for equation in [
        joined(&[&to_a, &not_to_a, &[1]]),
        joined(&[&to_a, &to_b, &[1]]),
        joined(&[&to_a, &not_to_a, &[1], &to_b, &[1, 0]]),
    ] {
        assert_eq!(evaluate(&equation, &LETTER), Ok(true));
        let one = Draft::new().with_item(0x14, b"A").bytes();
        assert_eq!(evaluate(&equation, &one), Ok(false));
    }
}

#[test]
fn a_number_behind_an_item_of_a_wrong_width() {
    for wrong in [&b""[..], b"abc", b"abcde", &[7; 8], &[7; 255]] {
        let behind = Draft::new().with_item(0x30, wrong).with_item(0x30, &[7]);
        let ahead = Draft::new().with_item(0x30, &[7]).with_item(0x30, wrong);
        let between = behind.clone().with_item(0x30, wrong);
        for file in [behind.bytes(), ahead.bytes(), between.bytes()] {
            for (code, constant, expected) in [
                (0x80, 7, true),
                (0x80, 8, false),
                (0x90, 6, true),
                (0x90, 7, false),
                (0xa0, 8, true),
                (0xa0, 7, false),
                // The item of a wrong width is not "not equal" to 7 either.
                (0xb0, 7, false),
                (0xb0, 8, true),
                (0xc0, 7, true),
                (0xc0, 8, false),
                (0xd0, 7, true),
                (0xd0, 6, false),
            ] {
                let asked = relation(code, 0x30, &[constant]);
                assert_eq!(evaluate(&asked, &file), Ok(expected), "{asked:x?}");
            }
            // As text each of the two is an item like any other.
            assert_eq!(evaluate(&relation(0x83, 0x30, &[7]), &file), Ok(true));
            assert_eq!(evaluate(&relation(0xb3, 0x30, &[7]), &file), Ok(true));
            assert_eq!(evaluate(&relation(0x83, 0x30, wrong), &file), Ok(true));
        }
    }
}

#[test]
fn several_numbers_of_one_id() {
    // 3 in one byte, 300 in two, 70,000 in four.
    let file = Draft::new()
        .with_item(0x30, &[3])
        .with_item(0x30, &[0x2c, 0x01])
        .with_item(0x30, &[0x70, 0x11, 0x01, 0])
        .bytes();
    for code in 0..6 {
        for constant in [0u32, 2, 3, 4, 299, 300, 301, 69_999, 70_000, 70_001] {
            let asked = relation(0x80 | code << 4, 0x30, &constant.to_le_bytes());
            let numbers = [3, 300, 70_000];
            let expected = numbers.iter().any(|&left| compare(code, left, constant));
            assert_eq!(evaluate(&asked, &file), Ok(expected), "{asked:x?}");
        }
    }
    // Greater than 300 and less than 300, each met by another item.
    let both = joined(&[
        &relation(0x90, 0x30, &[0x2c, 0x01]),
        &relation(0xa0, 0x30, &[0x2c, 0x01]),
        &[1],
    ]);
    assert_eq!(evaluate(&both, &file), Ok(true));
}

#[test]
fn not_equal_on_several_texts() {
    let title = |texts: &[&[u8]]| {
        let mut draft = Draft::new();
        for text in texts {
            draft = draft.with_item(0x22, text);
        }
        draft.bytes()
    };
    let not_land = relation(0xb3, 0x22, b"*LAND*");
    for (texts, expected) in [
        (&[][..], false),
        (&[&b"Landrover"[..]][..], false),
        (&[b"Landrover", b"land"], false),
        (&[b"Landrover", b"sea"], true),
        (&[b"sea", b"Landrover"], true),
        (&[b"Landrover", b"land", b""], true),
        (&[b"sea", b"sky"], true),
    ] {
        assert_eq!(evaluate(&not_land, &title(texts)), Ok(expected));
    }
}

/// Whether data meet a relation of that code, by the paper's words.
fn meets(code: u8, data: &[u8], constant: &[u8]) -> bool {
    let value = |bytes: &[u8]| match *bytes {
        [one] => Some(u32::from(one)),
        [one, two] => Some(u32::from(one) + 256 * u32::from(two)),
        [one, two, three, four] => Some(u32::from_le_bytes([one, two, three, four])),
        _ => None,
    };
    match (code & 0x0f, value(data), value(constant)) {
        (3, _, _) => matches_plainly(constant, data) == (code == 0x83),
        (_, Some(left), Some(right)) => compare(code >> 4 & 7, left, right),
        _ => false,
    }
}

#[test]
fn any_item_of_random_headers_may_meet_a_relation() {
    let mut random = Random::new(12);
    let (mut held, mut by_a_later) = (0, 0);
    for _ in 0..3000 {
        let draft = generator::sound(&mut random, 4);
        let file = draft.bytes();
        // Those behind the first eleven, whose data are not worked out.
        let (id, near) = random.pick(&draft.items[11..]).clone();
        let same = draft.items.iter().filter(|item| item.0 == id);
        let data: Vec<&[u8]> = same.map(|item| &item.1[..]).collect();
        for code in [0x80, 0x90, 0xa0, 0xb0, 0xc0, 0xd0, 0x83, 0xb3] {
            let fits = code & 3 == 3 || [1, 2, 4].contains(&near.len());
            let constant = if fits { &near[..] } else { &[2] };
            if constant.iter().filter(|&&byte| byte == b'*').count() > 4 {
                continue;
            }
            let asked = relation(code, id, constant);
            let expected = data.iter().any(|data| meets(code, data, constant));
            assert_eq!(evaluate(&asked, &file), Ok(expected), "{asked:x?}");
            held += usize::from(expected);
            by_a_later += usize::from(expected && !meets(code, data[0], constant));
        }
    }
    assert!(held > 5000 && by_a_later > 1000, "{held}, {by_a_later}");
}

#[test]
fn text_relations_on_any_item() {
    let file = Draft::new().bytes();
    let zeros = relation(0x83, 0x01, &[0; 4]);
    assert_eq!(evaluate(&zeros, &file), Ok(true));
    let size = relation(0x83, 0x04, b"P\0??");
    assert_eq!(evaluate(&size, &file), Ok(true));
    assert_eq!(evaluate(&relation(0xb3, 0x02, b"?"), &file), Ok(true));
    assert_eq!(evaluate(&relation(0xb0, 0x02, &[1]), &file), Ok(false));
}

#[test]
fn only_ascii_letters_are_lowered() {
    for one in 0..=255u8 {
        for other in 0..=255u8 {
            if one == b'*' || one == b'?' {
                continue;
            }
            let lower = |byte: u8| match byte {
                0x41..=0x5a => byte + 32,
                _ => byte,
            };
            assert_eq!(matches(&[one], &[other]), lower(one) == lower(other));
        }
    }
}

#[test]
fn wildcards_stand_only_in_the_constant() {
    assert!(matches(b"a?b", b"a*b"));
    assert!(!matches(b"axb", b"a*b"));
    assert!(!matches(b"axb", b"a?b"));
    assert!(matches(b"*", b""));
    assert!(matches(b"", b""));
    assert!(!matches(b"", b"a"));
    assert!(matches(b"?", &[0xff]));
    assert!(!matches(b"a ", b"a"));
    assert!(!matches(b"land", b"landrover"));
    assert!(matches(b"L*D*R", b"landrover"));
    assert!(matches(&[b'?'; 255], &[0; 255]));
    assert!(!matches(&[b'?'; 255], &[0; 254]));
}

/// The match by its plain meaning, trying every run for a `*`.
fn matches_plainly(constant: &[u8], text: &[u8]) -> bool {
    match (constant, text) {
        ([], _) => text.is_empty(),
        ([b'*', rest @ ..], _) => (0..=text.len()).any(|run| matches_plainly(rest, &text[run..])),
        ([b'?', rest @ ..], [_, after @ ..]) => matches_plainly(rest, after),
        ([byte, rest @ ..], [other, after @ ..]) => {
            byte.eq_ignore_ascii_case(other) && matches_plainly(rest, after)
        }
        (_, []) => false,
    }
}

fn words(letters: &[u8], most: usize) -> Vec<Vec<u8>> {
    let mut words = vec![Vec::new()];
    let mut last = words.clone();
    for _ in 0..most {
        let mut next = Vec::new();
        for word in &last {
            for &letter in letters {
                let mut longer: Vec<u8> = word.clone();
                longer.push(letter);
                next.push(longer);
            }
        }
        words.extend(next.clone());
        last = next;
    }
    words
}

#[test]
fn every_short_constant_against_every_short_text() {
    let texts = words(b"aB", 5);
    for constant in words(b"aB*?", 5) {
        for text in &texts {
            let expected = matches_plainly(&constant, text);
            assert_eq!(matches(&constant, text), expected);
        }
    }
}

#[test]
fn random_long_texts_match_as_plainly() {
    let mut random = Random::new(6);
    for _ in 0..3000 {
        let length = random.below(40);
        let text: Vec<u8> = (0..length).map(|_| *random.pick(b"abAB")).collect();
        let mut constant = text.clone();
        for _ in 0..random.below(5) {
            let at = random.below(constant.len() + 1);
            if random.chance(1, 2) {
                constant.insert(at, b'*');
            } else if at < constant.len() {
                let end = random.between(at, constant.len());
                constant.splice(at..end, *b"*");
            }
        }
        for _ in 0..random.below(3) {
            if !constant.is_empty() {
                let at = random.below(constant.len());
                constant[at] = *random.pick(b"ab?");
            }
        }
        let expected = matches_plainly(&constant, &text);
        assert_eq!(matches(&constant, &text), expected);
    }
}

/// A longest pattern of four `*` against a longest text ends at once.
#[test]
fn long_texts_end_quickly() {
    let mut constant = vec![b'a'; 251];
    for place in [50, 100, 150, 200] {
        constant.insert(place, b'*');
    }
    assert_eq!(constant.len(), 255);
    assert!(!matches(&constant, &[b'a'; 250]));
    assert!(matches(&constant, &[b'a'; 255]));
    constant[254] = b'b';
    assert!(!matches(&constant, &[b'a'; 255]));
}

/// Symbols of a postfix equation: a relation that is true, one that is false,
/// AND, OR and the mark.
const SYMBOLS: [&[u8]; 5] = [
    &[0x83, 0x22, 0, 1, b't'],
    &[0xb3, 0x22, 0, 1, b't'],
    &[1],
    &[2],
    &[0],
];

/// The truth of symbols by the grammar: a relation, or two equations and a
/// connective. None where they are no equation.
fn truth(symbols: &[usize]) -> Option<bool> {
    match symbols {
        [0] => Some(true),
        [1] => Some(false),
        [rest @ .., connective @ (2 | 3)] => (1..rest.len()).find_map(|cut| {
            let left = truth(&rest[..cut])?;
            let right = truth(&rest[cut..])?;
            Some(if *connective == 2 {
                left && right
            } else {
                left || right
            })
        }),
        _ => None,
    }
}

#[test]
fn every_short_row_of_symbols() {
    let file = titled(b"T");
    let rows = words(&[0, 1, 2, 3, 4], 7);
    for row in rows {
        let row: Vec<usize> = row.into_iter().map(usize::from).collect();
        let bytes: Vec<u8> = row
            .iter()
            .flat_map(|&symbol| SYMBOLS[symbol].to_vec())
            .collect();
        let unmarked = match row.as_slice() {
            [rest @ .., 4] => rest,
            all => all,
        };
        assert_eq!(evaluate(&bytes, &file), truth(unmarked).ok_or(8));
    }
}

/// A random equation as bytes, with its truth on the file.
fn grow(random: &mut Random, budget: usize) -> (Vec<u8>, bool) {
    if budget <= 1 || random.chance(1, 5) {
        let symbol = random.below(2);
        return (SYMBOLS[symbol].to_vec(), symbol == 0);
    }
    let left_budget = random.between(1, budget - 1);
    let (mut bytes, left) = grow(random, left_budget);
    let (more, right) = grow(random, budget - left_budget);
    bytes.extend(more);
    if random.chance(1, 2) {
        bytes.push(1);
        (bytes, left && right)
    } else {
        bytes.push(2);
        (bytes, left || right)
    }
}

#[test]
fn random_equations_have_the_truth_of_their_tree() {
    let file = titled(b"T");
    let mut random = Random::new(7);
    for _ in 0..3000 {
        let budget = random.between(1, 90);
        let (mut bytes, expected) = grow(&mut random, budget);
        if random.chance(1, 2) {
            bytes.push(0);
        }
        assert_eq!(evaluate(&bytes, &file), Ok(expected));
    }
}

#[test]
fn any_bytes_get_an_answer() {
    let file = titled(b"T");
    let mut random = Random::new(8);
    for _ in 0..20_000 {
        let budget = random.between(1, 6);
        let (mut bytes, _) = grow(&mut random, budget);
        for _ in 0..random.below(4) {
            let at = random.below(bytes.len());
            bytes[at] = random.byte();
        }
        assert!(matches!(evaluate(&bytes, &file), Ok(_) | Err(8)));
    }
}
