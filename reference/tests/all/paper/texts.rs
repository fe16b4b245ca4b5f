//! Texts at the borders of the grammar, and each reason at each of its places.

use reference::paper::names::NAMES;
use reference::paper::Reason;

use super::{nested, read, write};
use crate::common::hex;

/// Each text and what it is answered with.
fn answers(table: &[(&str, &str)]) {
    for (text, answer) in table {
        assert_eq!(read(text), *answer, "{text}");
    }
}

#[test]
fn the_example_of_the_request() {
    let bytes = "a0040004401f0000832300072a726f7665722a90180001020201";
    let typed = "(FILE_SIZE < 8000) && (KEYWORDS == \"*rover*\" || PRIORITY > 2)";
    let written = "FILE_SIZE < 8000 && (KEYWORDS == \"*rover*\" || PRIORITY > 2)";
    assert_eq!(read(typed), bytes);
    assert_eq!(read(written), bytes);
    assert_eq!(write(&hex(bytes)), written);
}

#[test]
fn every_operator_and_kind() {
    answers(&[
        ("PRIORITY==5", "8018000105"),
        ("PRIORITY>5", "9018000105"),
        ("PRIORITY<5", "a018000105"),
        ("PRIORITY!=5", "b018000105"),
        ("PRIORITY>=5", "c018000105"),
        ("PRIORITY<=5", "d018000105"),
        ("TITLE==\"m\"", "832200016d"),
        ("TITLE!=\"m\"", "b32200016d"),
        ("TITLE == \"\"", "83220000"),
        ("\t TITLE\t ==\t \"m\" \t", "832200016d"),
    ]);
}

#[test]
fn items_are_named_in_either_case_or_numbered() {
    for (name, id, width) in NAMES {
        let [low, high] = id.to_le_bytes();
        let constant = format!("{:02x}07{}", width, "00".repeat(width - 1));
        let bytes = format!("80{low:02x}{high:02x}{constant}");
        let small = name.to_lowercase();
        let mixed = format!("{}{}", &small[..2], &name[2..]);
        let hash = format!("#{id:04x}");
        for item in [name, &small, &mixed, &hash, &hash.to_uppercase()] {
            assert_eq!(read(&format!("{item} == 7")), bytes, "{item}");
        }
        assert_eq!(write(&hex(&bytes)), format!("{name} == 7"));
    }
    answers(&[
        ("#0000==0", "8000000100"),
        ("#FfFf==0", "80ffff0100"),
        ("#1400==0", "8000140100"),
        ("#0027==0", "8027000100"),
    ]);
}

/// The names as the page of the grammar prints them.
const PRINTED: &str = "FILE_NUMBER 01 (4), FILE_NAME 02, FILE_EXT 03, FILE_SIZE 04 (4), \
CREATE_TIME 05 (4), LAST_MODIFIED_TIME 06 (4), SEU_FLAG 07 (1), FILE_TYPE 08 (1), \
BODY_CHECKSUM 09 (2), HEADER_CHECKSUM 0a (2), BODY_OFFSET 0b (2), SOURCE 10, AX25_UPLOADER 11, \
UPLOAD_TIME 12 (4), DOWNLOAD_COUNT 13 (1), DESTINATION 14, AX25_DOWNLOADER 15, \
DOWNLOAD_TIME 16 (4), EXPIRE_TIME 17 (4), PRIORITY 18 (1), COMPRESSION_TYPE 19 (1), \
BBS_MESSAGE_TYPE 20 (1), BULLETIN_ID_NUMBER 21, TITLE 22, KEYWORDS 23, FILE_DESCRIPTION 24, \
COMPRESSION_DESCRIPTION 25, USER_FILE_NAME 26";

#[test]
fn the_names_are_those_of_the_page() {
    let printed: Vec<(&str, u16, usize)> = PRINTED
        .split(", ")
        .map(|entry| {
            let words: Vec<&str> = entry.split(' ').collect();
            let id = u16::from_str_radix(words[1], 16).unwrap();
            let width = words.get(2).map_or(1, |width| width[1..2].parse().unwrap());
            (words[0], id, width)
        })
        .collect();
    assert_eq!(printed, NAMES);
}

#[test]
fn no_name_is_the_beginning_of_another() {
    for (name, id, _) in NAMES {
        for (other, other_id, _) in NAMES {
            assert!(id == other_id || !other.starts_with(name));
        }
    }
}

#[test]
fn widths() {
    answers(&[
        ("PRIORITY<255", "a0180001ff"),
        ("PRIORITY<256", "a01800020001"),
        ("PRIORITY<65535", "a0180002ffff"),
        ("PRIORITY<65536", "a018000400000100"),
        ("BODY_OFFSET<255", "a00b0002ff00"),
        ("BODY_OFFSET<65536", "a00b000400000100"),
        ("FILE_SIZE<0", "a004000400000000"),
        ("FILE_SIZE<0:1", "a004000100"),
        ("FILE_SIZE<0:2", "a00400020000"),
        ("PRIORITY<255:1", "a0180001ff"),
        ("PRIORITY<255:2", "a0180002ff00"),
        ("PRIORITY<256:1", "wrong 14 width"),
        ("PRIORITY<256:2", "a01800020001"),
        ("PRIORITY<65535:2", "a0180002ffff"),
        ("PRIORITY<65536:2", "wrong 16 width"),
        ("PRIORITY<65536:4", "a018000400000100"),
        ("PRIORITY<5:4", "a018000405000000"),
        // A number may begin with zeros.
        ("PRIORITY<0000000000000000005", "a018000105"),
    ]);
}

#[test]
fn the_largest_number() {
    answers(&[
        ("PRIORITY<4294967295", "a0180004ffffffff"),
        ("PRIORITY<0004294967295", "a0180004ffffffff"),
        ("PRIORITY<4294967295:4", "a0180004ffffffff"),
        ("PRIORITY<4294967295:2", "wrong 21 width"),
        ("PRIORITY<4294967296", "wrong 19 large"),
        ("PRIORITY<4294967300", "wrong 19 large"),
        ("PRIORITY<42949672950", "wrong 20 large"),
        ("PRIORITY<9999999999", "wrong 19 large"),
        ("PRIORITY<10000000000", "wrong 20 large"),
    ]);
}

#[test]
fn brackets_to_the_sixteenth() {
    let relation = "PRIORITY<5";
    assert_eq!(read(&nested(16, relation)), "a018000105");
    assert_eq!(read(&nested(17, relation)), "wrong 17 deeper");
    // Those that are closed do not count.
    let pairs = vec![nested(16, relation); 3].join("&&");
    assert_eq!(read(&pairs), "a018000105a01800010501a01800010501");
    let under = format!("{}&&({}", nested(15, relation), "(".repeat(16));
    assert_eq!(read(&under), format!("wrong {} deeper", under.len()));
    // Spread over the text, each opened behind a connective.
    let spread = |count: usize| {
        let open = "PRIORITY<5||(".repeat(count);
        format!("{open}PRIORITY<5{}", ")".repeat(count))
    };
    assert!(read(&spread(16)).starts_with("a018"));
    assert_eq!(read(&spread(17)), format!("wrong {} deeper", 13 * 17));
}

#[test]
fn grouping() {
    let (a, b, c, d) = ("832200016", "832200016", "832200016", "832200016");
    let (a, b, c, d) = (
        format!("{a}1"),
        format!("{b}2"),
        format!("{c}3"),
        format!("{d}4"),
    );
    for (text, bytes) in [
        ("a && b && c", format!("{a}{b}01{c}01")),
        ("a || b || c", format!("{a}{b}02{c}02")),
        ("a || b && c", format!("{a}{b}{c}0102")),
        ("a && b || c", format!("{a}{b}01{c}02")),
        ("a && b || c && d", format!("{a}{b}01{c}{d}0102")),
        ("a || b && c || d", format!("{a}{b}{c}0102{d}02")),
        ("a && (b || c) && d", format!("{a}{b}{c}0201{d}01")),
        ("a && (b && c)", format!("{a}{b}{c}0101")),
        ("a || (b || c)", format!("{a}{b}{c}0202")),
        ("(a || b) && (c || d)", format!("{a}{b}02{c}{d}0201")),
    ] {
        let mut typed = text.to_string();
        for letter in ["a", "b", "c", "d"] {
            typed = typed.replace(letter, &format!("TITLE=='{letter}'"));
        }
        let typed = typed.replace('\'', "\"");
        assert_eq!(read(&typed), bytes, "{text}");
        // These have no bracket too many.
        let written = typed.replace("==", " == ");
        assert_eq!(write(&hex(&bytes)), written);
    }
}

#[test]
fn strings_at_their_borders() {
    let string = |content: &str| format!("TITLE==\"{content}\"");
    // A relation of 255 bytes of string is too long for a packet by three
    // bytes, but it is a text of the grammar.
    assert_eq!(read(&string(&"a".repeat(255))), "refused bytes");
    assert_eq!(read(&string(&"a".repeat(256))), "wrong 264 long");
    assert_eq!(read(&string(&"\\x61".repeat(255))), "refused bytes");
    assert_eq!(read(&string(&"\\x61".repeat(256))), "wrong 1029 long");
    assert_eq!(read(&string(&("a".repeat(255) + "\\\""))), "wrong 264 long");
    assert_eq!(read(&string(&("a".repeat(255) + "?"))), "wrong 264 long");
    // What is no byte of a string is wrong for that reason there too.
    assert_eq!(
        read(&string(&("a".repeat(255) + "\x01"))),
        "wrong 264 string"
    );
    let unended = string(&"a".repeat(255));
    assert_eq!(read(&unended[..unended.len() - 1]), "wrong 264 string");
}

#[test]
fn stars() {
    let text = |content: &str| read(&format!("TITLE==\"{content}\""));
    assert_eq!(text("****"), "832200042a2a2a2a");
    assert_eq!(text("*a*b*c*d"), "832200082a612a622a632a64");
    assert_eq!(text("\\x2a\\x2A**"), "832200042a2a2a2a");
    assert_eq!(text("*****"), "wrong 13 stars");
    assert_eq!(text("****a*"), "wrong 14 stars");
    assert_eq!(text("****\\x2a"), "wrong 16 stars");
    assert_eq!(text("****\\x2b"), "832200052a2a2a2a2b");
    // As the 256th byte a star is the fifth first; an escape begins one byte
    // too many, whatever it is.
    let full = format!("****{}", "a".repeat(251));
    assert_eq!(text(&full), "refused bytes");
    assert_eq!(text(&(full.clone() + "*")), "wrong 264 stars");
    assert_eq!(text(&(full.clone() + "\\x2a")), "wrong 264 long");
    assert_eq!(text(&(full + "a")), "wrong 264 long");
    let three = format!("***{}", "a".repeat(252));
    assert_eq!(text(&(three + "*")), "wrong 264 long");
    // Two strings have their stars each for itself.
    assert!(read("TITLE==\"****\"||TITLE==\"****\"").starts_with("83"));
}

#[test]
fn characters_of_strings() {
    for byte in 0..=255u8 {
        let text = [b"TITLE==\"", &[byte][..], b"\""].concat();
        let answer = match reference::paper::to_bytes(&text) {
            Ok(bytes) => bytes == [0x83, 0x22, 0, 1, byte],
            Err(reference::paper::Refusal::Wrong(place, reason)) => match byte {
                // The string ends at once.
                b'"' => (place, reason) == (10, Reason::Connective),
                b'\\' => (place, reason) == (11, Reason::String),
                _ => (place, reason) == (9, Reason::String) && !(0x20..=0x7e).contains(&byte),
            },
            Err(_) => false,
        };
        assert!(answer, "{byte}");
        for digits in [format!("{byte:02x}"), format!("{byte:02X}")] {
            let expected = format!("83220001{byte:02x}");
            assert_eq!(read(&format!("TITLE==\"\\x{digits}\"")), expected);
        }
    }
    answers(&[
        ("TITLE==\"\\\"\\\\\"", "83220002225c"),
        ("TITLE==\"\\n\"", "wrong 10 string"),
        ("TITLE==\"\\X41\"", "wrong 10 string"),
        ("TITLE==\"\\xg1\"", "wrong 11 string"),
        ("TITLE==\"\\x4g\"", "wrong 12 string"),
        ("TITLE==\"\\x4", "wrong 12 string"),
        ("TITLE==\"\\x", "wrong 11 string"),
        ("TITLE==\"\\", "wrong 10 string"),
        ("TITLE==\"", "wrong 9 string"),
        ("TITLE==\"a\tb\"", "wrong 10 string"),
    ]);
}

#[test]
fn an_item_is_wanted() {
    answers(&[
        ("", "wrong 1 item"),
        ("  ", "wrong 3 item"),
        ("(", "wrong 2 item"),
        ("()", "wrong 2 item"),
        (")", "wrong 1 item"),
        ("&&", "wrong 1 item"),
        ("5<PRIORITY", "wrong 1 item"),
        ("\"m\"==TITLE", "wrong 1 item"),
        ("SIZE<5", "wrong 2 item"),
        ("FILE SIZE<5", "wrong 5 item"),
        ("FILE_SIZ", "wrong 9 item"),
        ("FILE_SIZ<5", "wrong 9 item"),
        ("FILE_X", "wrong 6 item"),
        ("TITEL==5", "wrong 4 item"),
        ("#", "wrong 2 item"),
        ("#004==5", "wrong 5 item"),
        ("#00 04==5", "wrong 4 item"),
        ("#00g4==5", "wrong 4 item"),
        ("PRIORITY<5&&", "wrong 13 item"),
        ("PRIORITY<5||&&PRIORITY<5", "wrong 13 item"),
        ("PRIORITY<5&&)", "wrong 13 item"),
    ]);
}

#[test]
fn an_operator_is_wanted() {
    answers(&[
        ("TITLE", "wrong 6 operator"),
        ("TITLE ", "wrong 7 operator"),
        ("TITLES==5", "wrong 6 operator"),
        ("TITLE \"m\"", "wrong 7 operator"),
        ("(TITLE)", "wrong 7 operator"),
        ("#00045==5", "wrong 6 operator"),
        ("TITLE=5", "wrong 7 operator"),
        ("TITLE= =5", "wrong 7 operator"),
        ("TITLE=", "wrong 7 operator"),
        ("TITLE=!5", "wrong 7 operator"),
        ("TITLE!5", "wrong 7 operator"),
        ("TITLE!", "wrong 7 operator"),
        ("TITLE&&TITLE==5", "wrong 6 operator"),
    ]);
}

#[test]
fn a_constant_is_wanted() {
    answers(&[
        ("TITLE > \"m\"", "wrong 9 order"),
        ("TITLE>\"m\"", "wrong 7 order"),
        ("TITLE<\"", "wrong 7 order"),
        ("TITLE<=\"m\"", "wrong 8 order"),
        ("TITLE>= \"m\"", "wrong 9 order"),
        ("TITLE==", "wrong 8 constant"),
        ("TITLE<", "wrong 7 constant"),
        ("TITLE< ", "wrong 8 constant"),
        ("TITLE<=", "wrong 8 constant"),
        ("TITLE===5", "wrong 8 constant"),
        ("TITLE<>5", "wrong 7 constant"),
        ("TITLE< =5", "wrong 8 constant"),
        ("TITLE<==5", "wrong 8 constant"),
        ("TITLE=='m'", "wrong 8 constant"),
        ("TITLE==m", "wrong 8 constant"),
        ("TITLE==-1", "wrong 8 constant"),
        ("TITLE<m", "wrong 7 constant"),
        ("(TITLE==)", "wrong 9 constant"),
    ]);
}

#[test]
fn a_width_is_wanted() {
    answers(&[
        ("TITLE==5:", "wrong 10 width"),
        ("TITLE==5:3", "wrong 10 width"),
        ("TITLE==5:0", "wrong 10 width"),
        ("TITLE==5: 1", "wrong 10 width"),
        ("TITLE==5:)", "wrong 10 width"),
        ("TITLE==256:1", "wrong 12 width"),
        ("TITLE==65536:1", "wrong 14 width"),
    ]);
}

#[test]
fn a_connective_is_wanted() {
    answers(&[
        ("TITLE==5 5", "wrong 10 connective"),
        ("TITLE==5 :1", "wrong 10 connective"),
        ("TITLE==5:12", "wrong 11 connective"),
        ("TITLE==5:1:1", "wrong 11 connective"),
        ("TITLE==5x", "wrong 9 connective"),
        ("TITLE==0x5", "wrong 9 connective"),
        ("TITLE==5.0", "wrong 9 connective"),
        ("TITLE==\"m\"\"n\"", "wrong 11 connective"),
        ("TITLE==5)", "wrong 9 connective"),
        ("(TITLE==5))", "wrong 11 connective"),
        ("(TITLE==5)(", "wrong 11 connective"),
        ("TITLE==5(", "wrong 9 connective"),
        ("TITLE==5&", "wrong 10 connective"),
        ("TITLE==5|", "wrong 10 connective"),
        ("(TITLE==5&", "wrong 11 connective"),
        ("TITLE==5& &TITLE==5", "wrong 10 connective"),
        ("TITLE==5&|", "wrong 10 connective"),
        ("TITLE==5|&", "wrong 10 connective"),
        ("TITLE==5AND", "wrong 9 connective"),
        ("TITLE==5\r", "wrong 9 connective"),
        ("TITLE==5 5&&(", "wrong 10 connective"),
    ]);
}

#[test]
fn a_bracket_is_open() {
    answers(&[
        ("(TITLE==5", "wrong 10 bracket"),
        ("(TITLE==5 ", "wrong 11 bracket"),
        ("((TITLE==5)", "wrong 12 bracket"),
        ("(TITLE==5:1", "wrong 12 bracket"),
        ("(TITLE==\"m\"", "wrong 12 bracket"),
        // Where something else is wanted, that is the reason.
        ("(TITLE==", "wrong 9 constant"),
        ("(TITLE==5&&", "wrong 12 item"),
    ]);
}

#[test]
fn above_256_bytes() {
    // 51 relations of four bytes with 50 connectives are 254 bytes.
    let text = |constant: &str| {
        let mut text = vec!["TITLE==\"\""; 50].join("&&");
        text.push_str("&&");
        text + "TITLE==\"" + constant + "\""
    };
    assert_eq!(read(&text("")).len(), 2 * 254);
    assert_eq!(read(&text("ab")).len(), 2 * 256);
    assert_eq!(read(&text("abc")), "refused bytes");
    let one = |length: usize| format!("TITLE==\"{}\"", "a".repeat(length));
    assert_eq!(read(&one(252)).len(), 2 * 256);
    assert_eq!(read(&one(253)), "refused bytes");
    // The place comes before the bytes.
    let long = one(253) + "&&" + &one(253);
    assert_eq!(read(&long), "refused bytes");
    assert_eq!(
        read(&(long.clone() + "&")),
        format!("wrong {} connective", long.len() + 2)
    );
}

#[test]
fn every_reason_has_its_word() {
    let words: Vec<&str> = Reason::ALL.iter().map(|reason| reason.word()).collect();
    let table =
        "item deeper operator order constant large width string stars long connective bracket";
    assert_eq!(words.join(" "), table);
}
