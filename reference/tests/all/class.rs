//! The program of a class day: its words, its answers, and its random scripts.

use crate::common::{data, data_end, to_hex, upload};
use reference::class::coverage::ClassCoverage;
use reference::class::{run, Day, Question};
use reference::draft::Draft;
use reference::generator::{class_story, seed_of};
use reference::lines::Reader;
use reference::script::{self, Driver, Unwatched};
use std::io::Write;
use std::process::{Command, Stdio};

/// What the lines between the first and the last are, for a script whose file 1
/// is complete, with priority 3 and title "Landrover", and file 2 partial.
fn told(lines: &[&str]) -> Vec<String> {
    let file = Draft::new()
        .with_item(0x18, &[3])
        .with_item(0x22, b"Landrover")
        .bytes();
    let stream = [
        upload(file.len() as u32),
        data(&file),
        data_end(),
        upload(5),
    ]
    .concat();
    let mut script = format!("open\t1\nrx\t1\t{}\n", to_hex(&stream));
    for line in lines {
        script += line;
        script += "\n";
    }
    let output = String::from_utf8(run(script.as_bytes())).unwrap();
    let all: Vec<String> = output.lines().map(str::to_string).collect();
    assert_eq!(all[0], "session\tpacket\tinformation");
    assert_eq!(all.last().unwrap(), "blocks\t126\t2");
    all[5..all.len() - 1].to_vec()
}

#[test]
fn answers() {
    for (line, answer) in [
        ("why\t1\tPRIORITY == 3", "why\t1\tmatched\t1"),
        ("why\t1\tPRIORITY == 4", "why\t1\tunmatched\t1"),
        (
            "why\t0001\t(PRIORITY > 2\t&& TITLE == \"*rover\") || FILE_SIZE < 1",
            "why\t1\tmatched\t1\t2",
        ),
        (
            "why\t1\tPRIORITY < 3 || FILE_SIZE < 1 || TITLE == \"m*\"",
            "why\t1\tunmatched\t1\t2\t3",
        ),
        ("why-bytes\t1\t8018000103", "why\t1\tmatched\t1"),
        ("why-bytes\t1\t801800010300", "why\t1\tmatched\t1"),
        ("why-bytes\t1\t", "why\t1\trefused\t8"),
        ("why-bytes\t9\t8318000103", "why\t9\trefused\t4"),
        ("why-bytes\t9\t9318000103", "why\t9\trefused\t8"),
        ("why\t1\t", "why\t1\twrong\t1\titem"),
        ("why\t9\tTITLE > \"m\"", "why\t9\twrong\t9\torder"),
        ("why\t9\tTITLE == \"m\"", "why\t9\trefused\t4"),
        ("why\t0\tTITLE == \"m\"", "why\t0\trefused\t4"),
        ("why\t2\tTITLE == \"m\"", "why\t2\trefused\t11"),
        (
            "why\t4294967295\tTITLE == \"m\" ",
            "why\t4294967295\trefused\t4",
        ),
    ] {
        assert_eq!(told(&[line]), [answer]);
    }
}

#[test]
fn long_equations() {
    let relation = "83220000";
    // 511 relations would need too deep a stack, if not joined at once.
    let mut bytes = relation.to_string();
    for _ in 0..408 {
        bytes += relation;
        bytes += "02";
    }
    let answers = told(&[
        &format!("why-bytes\t1\t{bytes}"),
        &format!("why-bytes\t1\t{bytes}0000"),
        &format!("why-bytes\t9\t{bytes}000000"),
        &format!("why\t9\t{}", vec!["TITLE == \"\""; 52].join(" || ")),
    ]);
    let all: Vec<String> = (1..=409).map(|number| number.to_string()).collect();
    assert_eq!(bytes.len(), 2 * 2044);
    assert_eq!(answers[0], format!("why\t1\tunmatched\t{}", all.join("\t")));
    assert_eq!(answers[1], "why\t1\trefused\t8");
    assert_eq!(answers[2], "why\t9\trefused\t8");
    assert_eq!(answers[3], "why\t9\trefused\tbytes");
    let above = "00".repeat(2048);
    assert_eq!(
        told(&[&format!("why-bytes\t9\t{above}")]),
        ["why\t9\trefused\t33"]
    );
}

/// The program's 32 files are fewer than MAXSEL 50, so only a smaller server
/// has a file beyond the selection.
#[test]
fn a_file_beyond_the_selection() {
    let mut driver = Driver::new(Unwatched);
    driver.server.sizes.maxsel = 2;
    let mut day = Day { driver };
    let stream = [upload(80), data(&Draft::new().bytes()), data_end()].concat();
    let line = format!("rx\t1\t{}", to_hex(&stream.repeat(4)));
    for line in ["open\t1", line.as_str()] {
        assert!(day.read(line.as_bytes(), &mut Vec::new()).unwrap());
    }
    let answer = |line: &str| day.answer(&Question::parse(line.as_bytes()).unwrap());
    let equation = "FILE_SIZE == 80 && UPLOAD_TIME != 1";
    assert_eq!(
        answer(&format!("why\t1\t{equation}")),
        "why\t1\tunmatched\t2"
    );
    assert_eq!(
        answer(&format!("why\t3\t{equation}")),
        "why\t3\tmatched\t1\t2"
    );
    assert_eq!(
        answer(&format!("why\t4\t{equation}")),
        "why\t4\tbeyond\t2\t1\t2"
    );
}

#[test]
fn lines_that_cannot_be_read() {
    for line in [
        "why",
        "why\t1",
        "why\t\tTITLE == 5",
        "why\tx\tTITLE == 5",
        "why\t4294967296\tTITLE == 5",
        "Why\t1\tTITLE == 5",
        " why\t1\tTITLE == 5",
        "why-bytes",
        "why-bytes\t1",
        "why-bytes\t1\t8",
        "why-bytes\t1\t83220000\t",
        "why-bytes\t1\t8322000A",
        "why-bytes\t-1\t83220000",
    ] {
        let lines = told(&["drop\t2", line, "why\t1\tTITLE == 5"]);
        assert_eq!(lines, ["2\trefused\t34", "error\t4"]);
        let script = format!("{line}\n");
        let output = run(script.as_bytes());
        assert_eq!(output, script::run(script.as_bytes()));
    }
}

#[test]
fn a_question_changes_nothing() {
    for index in 0..60 {
        let story = class_story(seed_of(21, index));
        let output = String::from_utf8(run(&story.text())).unwrap();
        let mut rest = story.clone();
        rest.lines.retain(|line| !line.starts_with(b"why"));
        let without = String::from_utf8(script::run(&rest.text())).unwrap();
        if output.contains("error\t") || without.contains("error\t") {
            continue;
        }
        let mut lines: Vec<&str> = output.lines().collect();
        lines.retain(|line| !line.starts_with("why\t"));
        assert_eq!(lines, without.lines().collect::<Vec<_>>());
    }
}

#[test]
fn the_scripts_reach_every_row_of_the_table() {
    let mut coverage = ClassCoverage::new();
    for index in 0..500 {
        coverage.note(&class_story(seed_of(1, index)).text());
    }
    assert_eq!(coverage.unforeseen(), [""; 0]);
    assert_eq!(coverage.missing(), [""; 0]);
}

#[test]
fn the_program_prints_the_same() {
    let program = env!("CARGO_BIN_EXE_class-reference");
    for index in 0..20 {
        let text = class_story(seed_of(2, index)).text();
        let expected = run(&text);
        let mut child = Command::new(program)
            .stdin(Stdio::piped())
            .stdout(Stdio::piped())
            .spawn()
            .unwrap();
        let mut input = child.stdin.take().unwrap();
        let writer = std::thread::spawn(move || {
            // A program that ends early does not read all.
            let _ = input.write_all(&text);
        });
        let output = child.wait_with_output().unwrap();
        writer.join().unwrap();
        assert_eq!(output.stdout, expected);
    }
}
