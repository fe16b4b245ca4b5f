//! The marking desk and the right sheets.

use crate::common::{data, data_end, download, select_above, to_hex, upload};
use reference::desk::coverage::SheetCoverage;
use reference::desk::{run_desk, run_sheet};
use reference::draft::Draft;
use reference::generator::{answer_sheet, seed_of, sheet_script};
use reference::lines::LINE_MOST;
use reference::script::{run, Line};

fn marked(sheet: &str) -> Vec<String> {
    lines(&run_desk(sheet.as_bytes()))
}

fn lines(output: &[u8]) -> Vec<String> {
    let text = String::from_utf8(output.to_vec()).expect("plain text");
    assert!(text.is_empty() || text.ends_with('\n'));
    text.lines().map(str::to_string).collect()
}

/// A script with packets, empty information, a closing and refusals.
fn script() -> String {
    let file = Draft::new().bytes();
    let stream = [upload(80), data(&file), data_end(), select_above(0)].concat();
    format!(
        "time\t0007\nopen\t01\nrx\t1\t{}\nrx\t1\t{}\nrx\t1\t\ndrop\t2\nrx\t1\t0120\nrx\t1\t\n",
        to_hex(&stream),
        to_hex(&download(0, 80, 0))
    )
}

#[test]
fn the_right_sheet() {
    let script = script();
    let given: Vec<&str> = script.lines().collect();
    let answers = [
        "",
        "\tLOGIN_RESP\t0700000004",
        "\tUL_GO_RESP\t0100000000000000\tUL_ACK_RESP\t\tSELECT_RESP\t0100",
        "\tDATA_END\t",
        "",
        "\trefused\t34",
        "\tclosed",
        "\trefused\t34",
    ];
    let sheet = lines(&run_sheet(script.as_bytes()));
    assert_eq!(sheet.len(), answers.len());
    for ((line, given), answer) in sheet.iter().zip(given).zip(answers) {
        assert_eq!(line, &format!("{given}{answer}"));
    }
    let marks = lines(&run_desk(&run_sheet(script.as_bytes())));
    for (mark, answer) in marks.iter().zip(answers) {
        assert_eq!(mark, &format!("right{answer}"));
    }
    assert_eq!(marks[8..], ["marks\t8"]);
}

#[test]
fn empty_inputs() {
    assert_eq!(marked(""), ["marks\t0"]);
    assert_eq!(run_sheet(b""), b"");
    assert_eq!(marked("\n"), ["refused\t37\t1", "marks\t0"]);
    assert_eq!(lines(&run_sheet(b"\n")), ["error\t1"]);
}

#[test]
fn answers_that_are_wrong() {
    let right = "LOGIN_RESP\t0000000004";
    for answer in [
        "",
        "\t",
        "\tLOGIN_RESP",
        "\tLOGIN_RESP\t",
        "\tLOGIN_RESP\t0000000005",
        "\tLOGIN_RESP\t0000000004\t",
        "\tLOGIN_RESP\t0000000004\tclosed",
        "\tLOGIN_RESP\t0000000004\r",
        "\tLOGIN_RESP\t0000000004 ",
        "\tlogin_resp\t0000000004",
        "\t\tLOGIN_RESP\t0000000004",
        "\t1\tLOGIN_RESP\t0000000004",
        "\t0000000004\tLOGIN_RESP",
        "\tclosed",
    ] {
        let wrong = format!("wrong\t{right}");
        assert_eq!(marked(&format!("open\t1{answer}")), [&wrong, "marks\t0"]);
    }
    let sheet = format!("open\t1\t{right}");
    assert_eq!(marked(&sheet), [&format!("right\t{right}"), "marks\t1"]);
    assert_eq!(marked("time\t5\t"), ["wrong", "marks\t0"]);
    assert_eq!(marked("time\t5"), ["right", "marks\t1"]);
    assert_eq!(marked("time\t5\n"), ["right", "marks\t1"]);
}

/// A wrong answer changes nothing: the server hears the script's fields.
#[test]
fn the_server_goes_on_behind_a_wrong_answer() {
    let marks = marked("time\t1\tx\nopen\t1\tclosed\nrx\t1\t000d\nrx\t1\t0001\tclosed\n");
    assert_eq!(
        marks,
        [
            "wrong",
            "wrong\tLOGIN_RESP\t0100000004",
            "right",
            "right\tclosed",
            "marks\t2"
        ]
    );
}

#[test]
fn lines_whose_script_fields_cannot_be_read() {
    for line in [
        "",
        "\t",
        "time",
        "time\t",
        "time\tx",
        "time\t4294967296",
        "Time\t1",
        "open",
        "open\t",
        "open\t\tLOGIN_RESP\t0000000004",
        "rx",
        "rx\t1",
        "rx\t1\t0",
        "rx\t1\tclosed",
        "rx\t\t00",
        "why\t1\tTITLE == 5",
        "\u{feff}time\t1",
    ] {
        let sheet = format!("time\t4\ntime\t5\tno\n{line}\ntime\t6\n");
        let marks = marked(&sheet);
        assert_eq!(marks, ["right", "wrong", "refused\t37\t3", "marks\t1"]);
    }
}

#[test]
fn lines_about_as_long_as_the_buffer() {
    for (length, read) in [
        (LINE_MOST - 1, true),
        (LINE_MOST, true),
        (LINE_MOST + 1, false),
    ] {
        let mut long = "time\t5\t".to_string();
        long += &"0".repeat(length - long.len());
        for end in ["", "\n", "\ntime\t7\n"] {
            let marks = marked(&format!("time\t4\n{long}{end}"));
            assert_eq!(marks[0], "right");
            if read {
                assert_eq!(marks[1], "wrong");
            } else {
                assert_eq!(marks[1..], ["refused\t37\t2", "marks\t1"]);
            }
        }
    }
    // A right answer does not help a line that is too long.
    let packets = (LINE_MOST - "rx\t1\t\trefused\t34".len()) / 4;
    for (packets, last) in [(packets, "marks\t1"), (packets + 1, "marks\t0")] {
        let script = format!("rx\t1\t{}\n", "000d".repeat(packets));
        let sheet = run_sheet(script.as_bytes());
        assert_eq!(lines(&run_desk(&sheet)).last().unwrap(), last);
    }
}

#[test]
fn right_sheets_get_full_marks() {
    let mut too_long = 0;
    for index in 0..150 {
        let mut story = sheet_script(seed_of(31, index));
        let readable = story
            .lines
            .iter()
            .take_while(|line| Line::parse(line).is_some());
        story.lines = readable.cloned().collect();
        let sheet = run_sheet(&story.text());
        if sheet
            .split(|&byte| byte == b'\n')
            .any(|line| line.len() > LINE_MOST)
        {
            too_long += 1;
            continue;
        }
        let marks = lines(&run_desk(&sheet));
        let count = story.lines.len();
        assert_eq!(marks.len(), count + 1);
        assert!(marks[..count].iter().all(|line| line.starts_with("right")));
        assert_eq!(marks[count], format!("marks\t{count}"));
    }
    assert!(too_long < 20);
}

/// The fields of the sheet are those that the script program prints.
#[test]
fn the_sheet_has_all_that_is_printed() {
    for index in 0..60 {
        let text = sheet_script(seed_of(32, index)).text();
        let printed = lines(&run(&text));
        let mut fields: Vec<&str> = Vec::new();
        for line in &printed[1..printed.len() - 1] {
            if !line.starts_with("error\t") {
                fields.extend(line.split('\t').skip(1));
            }
        }
        let mut answered: Vec<String> = Vec::new();
        for line in lines(&run_sheet(&text)) {
            let count = if line.starts_with("rx\t") { 3 } else { 2 };
            answered.extend(line.split('\t').skip(count).map(str::to_string));
        }
        assert_eq!(answered, fields);
    }
}

#[test]
fn the_sheets_reach_every_row_of_the_table() {
    let mut coverage = SheetCoverage::new();
    for index in 0..600 {
        coverage.note(&answer_sheet(seed_of(1, index)).text());
    }
    assert_eq!(coverage.unforeseen(), [""; 0]);
    assert_eq!(coverage.missing(), [""; 0]);
}
