//! A pupil's fields beside the server's, and the lines that ask why.
use tools::script::{Asked, Command};
use tools::sheet::{both, differs, mark_row, parted, right, script, Mark};

fn bytes(fields: &[&str]) -> Vec<Vec<u8>> {
    fields
        .iter()
        .map(|field| field.as_bytes().to_vec())
        .collect()
}

fn wrong(written: &[&str], answered: &[&str]) -> Mark {
    Mark {
        right: false,
        written: bytes(written),
        answered: bytes(answered),
    }
}

#[test]
fn a_sheet_s_line_is_parted_behind_its_own_fields() {
    let rows: [(&str, &str, &[&str]); 9] = [
        ("time\t0", "time\t0", &[]),
        ("time\t0\t", "time\t0", &[""]),
        ("drop\t1\tclosed", "drop\t1", &["closed"]),
        ("rx\t1\t0001", "rx\t1\t0001", &[]),
        ("rx\t1\t\tDATA_END\t", "rx\t1\t", &["DATA_END", ""]),
        ("rx\t1", "rx\t1", &[]),
        ("rxx\t1\ta", "rxx\t1", &["a"]),
        ("open", "open", &[]),
        ("", "", &[]),
    ];
    for (line, own, written) in rows {
        let parts = parted(line.as_bytes());
        assert_eq!(parts, (own.as_bytes(), bytes(written)), "{line}");
    }
}

#[test]
fn the_script_of_a_sheet_has_its_own_fields_and_long_lines_whole() {
    let sheet = b"open\t1\tLOGIN_RESP\t0000000004\nrx\t1\t00\t\tx";
    assert_eq!(script(sheet), b"open\t1\nrx\t1\t00\n");
    let long = |length: usize| [b"time\t0\t".to_vec(), vec![b'x'; length - 7]].concat();
    assert_eq!(script(&long(131_072)), b"time\t0\n");
    assert_eq!(script(&long(131_073)).len(), 131_074);
}

#[test]
fn where_a_wrong_line_first_differs() {
    let rows: [(&[&str], &[&str], &str); 7] = [
        (&[], &["closed"], "field 1 of the answer is missing"),
        (
            &["UL_ACK_RESP"],
            &["UL_ACK_RESP", ""],
            "field 2 of the answer is missing: it is empty, and a tab stands before it",
        ),
        (&["closed"], &[], "field 1 of the answer is one too many"),
        (&[""], &[], "a tab too many: field 1 of the answer is empty"),
        (
            &["SELECT_RESP 0000"],
            &["SELECT_RESP", "0000"],
            "field 1 of the answer differs from its character 12 on",
        ),
        (
            &["A", "0100"],
            &["A", "2000"],
            "field 2 of the answer differs",
        ),
        (
            &["A", "0100"],
            &["A", "0101"],
            "field 2 of the answer differs from its character 4 on",
        ),
    ];
    for (written, answered, words) in rows {
        assert_eq!(differs(&wrong(written, answered)), words);
    }
}

#[test]
fn of_long_fields_the_place_is_shown_where_they_differ() {
    let (left, right) = ("0".repeat(400) + "1", "0".repeat(402));
    let mark = wrong(&["DATA", &left], &["DATA", &right]);
    let (written, answered) = both(&mark);
    assert_eq!(
        written,
        ["DATA".to_string(), format!("..{}1", "0".repeat(79))]
    );
    assert_eq!(answered[1], format!("..{}", "0".repeat(80)));
    let many: Vec<String> = (0..40).map(|number| number.to_string()).collect();
    let mut other: Vec<&str> = many.iter().map(String::as_str).collect();
    let same = other.clone();
    other[30] = "x";
    let (written, answered) = both(&wrong(&other, &same));
    assert_eq!(
        written.join(" "),
        ".. 27 28 29 x 31 32 33 34 35 36 37 38 .."
    );
    assert_eq!(
        answered.join(" "),
        ".. 27 28 29 30 31 32 33 34 35 36 37 38 .."
    );
}

#[test]
fn marks_in_words() {
    let mark = wrong(&["UL_ACK_RESP \x1b\t"], &["UL_ACK_RESP", ""]);
    let row = mark_row(&mark);
    assert_eq!(
        (row.name.as_str(), &row.details[..]),
        (
            "wrong",
            &[
                "written:  UL_ACK_RESP \\x1b\\x09".to_string(),
                "answered: UL_ACK_RESP | (empty)".to_string()
            ][..]
        )
    );
    assert_eq!(
        mark_row(&wrong(&[], &["a"])).details[0],
        "written:  nothing"
    );
    let good = Mark {
        right: true,
        ..mark.clone()
    };
    assert_eq!(right(&[good.clone(), mark, good]), "2 of 3");
}

#[test]
fn lines_that_ask_why() {
    let text = |file, text: &str| Some(Command::Why(file, Asked::Text(text.as_bytes().to_vec())));
    let rows = [
        ("why\t2\tTITLE == \"a\"", text(2, "TITLE == \"a\"")),
        ("why\t007\t\tA\t", text(7, "\tA\t")),
        ("why\t4294967295\t", text(u32::MAX, "")),
        (
            "why-bytes\t1\t",
            Some(Command::Why(1, Asked::Bytes(vec![]))),
        ),
        (
            "why-bytes\t1\t0aff",
            Some(Command::Why(1, Asked::Bytes(vec![10, 255]))),
        ),
        ("why", None),
        ("why\t", None),
        ("why\t1", None),
        ("why\t\ta", None),
        ("why\t1 \ta", None),
        ("why\t-1\ta", None),
        ("why\t+1\ta", None),
        ("why\t4294967296\ta", None),
        ("why-bytes\t1", None),
        ("why-bytes\t1\t0", None),
        ("why-bytes\t1\t0A", None),
        ("why-bytes\t1\t00\t", None),
        ("WHY\t1\ta", None),
    ];
    for (line, command) in rows {
        assert_eq!(Command::read(line.as_bytes()), command, "{line}");
    }
}
