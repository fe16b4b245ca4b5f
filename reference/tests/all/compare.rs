//! The comparison of two programs: its scripts, the shortening, and the
//! program itself on programs that agree and that do not.

use std::fs;
use std::path::{Path, PathBuf};
use std::process::{Command, Output};

use reference::generator::{seed_of, story, uploads};
use reference::program::{Outcome, Program};
use reference::random::Random;
use reference::script::{run, run_watched, Line};
use reference::shorten::shorten;
use reference::variants::{lost, readable, text, Cutting};

use crate::common::model::Onlooker;

const PASSDAY: &str = env!("CARGO_BIN_EXE_passday");

fn contains(text: &[u8], part: &str) -> bool {
    String::from_utf8_lossy(text).contains(part)
}

#[test]
fn shortened_by_lines() {
    let script = b"time\t1\nopen\t1\nopen\t2\ntime\t2\nopen\t3\ndrop\t2\nopen\t4\n";
    let short = shorten(script, |text| {
        contains(text, "open\t2\n") && contains(text, "open\t4\n")
    });
    assert_eq!(short, b"open\t2\nopen\t4\n");
    assert_eq!(shorten(script, |_| true), b"");
    let all = shorten(script, |text| text == script);
    assert_eq!(all, script);
}

#[test]
fn shortened_by_packets_and_bytes() {
    let script = b"open\t1\nrx\t1\t000d08030000000050000000000d\nrx\t1\t0200aabb\n";
    // What the program prints is the property.
    let short = shorten(script, |text| contains(&run(text), "UL_GO_RESP\t0100"));
    assert_eq!(short, b"open\t1\nrx\t1\t08030000000050000000\n");
    let short = shorten(script, |text| contains(text, "bb\n"));
    assert_eq!(short, b"rx\t1\tbb\n");
}

#[test]
fn shortened_by_joining_lines() {
    let script = b"open\t1\nrx\t1\t08\nrx\t1\t0300000000\nrx\t1\t50000000\n";
    let short = shorten(script, |text| contains(&run(text), "UL_GO_RESP"));
    assert_eq!(short, b"open\t1\nrx\t1\t08030000000050000000\n");
}

#[test]
fn shortened_by_joining_lines_with_others_between() {
    // The drop between them must stay; the bytes of the upload come together.
    let script = b"open\t1\nrx\t1\t08\nopen\t2\nrx\t1\t03000000\ndrop\t2\nrx\t1\t0050000000\n";
    let short = shorten(script, |text| {
        contains(&run(text), "UL_GO_RESP") && contains(text, "drop\t2")
    });
    assert_eq!(short, b"open\t1\ndrop\t2\nrx\t1\t08030000000050000000\n");
}

#[test]
fn a_line_written_with_leading_zeros_stays_if_it_must() {
    let script = b"open\t001\nrx\t001\t00\n";
    let short = shorten(script, |text| contains(text, "rx\t001\t"));
    assert_eq!(short, b"rx\t001\t00\n");
}

#[test]
fn the_same_bytes_in_other_pieces_print_the_same() {
    let mut random = Random::new(11);
    let mut pieces = 0;
    for index in 0..200 {
        let lines = readable(&story(seed_of(6, index)));
        let expected = run(&text(&lines));
        let cutting = Cutting::new(&lines);
        let in_bytes = cutting.in_bytes();
        pieces += in_bytes.len() - lines.len();
        for form in [cutting.joined(), in_bytes, cutting.in_pieces(&mut random)] {
            assert_eq!(run(&text(&form)), expected);
        }
    }
    assert!(pieces > 10_000, "only {pieces} more pieces");
}

#[test]
fn lines_are_joined_where_they_can_be() {
    let lines = |script: &str| -> Vec<Line> {
        let lines = script.lines();
        lines
            .map(|line| Line::parse(line.as_bytes()).unwrap())
            .collect()
    };
    let cutting = Cutting::new(&lines("open\t1\nrx\t1\t00\nrx\t1\t0d\ntime\t1\nrx\t1\t00"));
    assert_eq!(
        cutting.joined(),
        lines("open\t1\nrx\t1\t000d\ntime\t1\nrx\t1\t00")
    );
    // Behind a closing, and on a closed session, nothing is cut or joined.
    let closing = "open\t1\nrx\t1\t012000\nrx\t1\t0000\nrx\t1\t00";
    let cutting = Cutting::new(&lines(closing));
    assert_eq!(cutting.joined(), lines(closing));
    assert_eq!(
        cutting.in_bytes(),
        lines("open\t1\nrx\t1\t01\nrx\t1\t2000\nrx\t1\t0000\nrx\t1\t00")
    );
}

#[test]
fn links_lost_after_each_byte() {
    let mut variants = 0;
    let mut continued = 0;
    for index in 0..6 {
        let story = uploads(seed_of(7, index));
        let bytes: usize = readable(&story)
            .iter()
            .map(|line| match line {
                Line::Rx(_, bytes) => bytes.len() + 1,
                _ => 0,
            })
            .sum();
        let mut made = 0;
        let all = lost(&story, |script| {
            made += 1;
            // The model checks that the offset offered is what was accepted.
            let (output, _) = run_watched(script, Onlooker::default());
            continued += usize::from(contains(&output, "UL_ACK_RESP"));
            true
        });
        assert!(all);
        assert_eq!(made, bytes);
        variants += made;
        assert!(!lost(&story, |_| false));
    }
    assert!(variants > 500 && continued > 100, "{variants}, {continued}");
}

#[test]
fn a_program_is_run_with_its_input_at_once_or_in_pieces() {
    let program = Program::new(Path::new(PASSDAY));
    for index in 0..8 {
        let script = story(seed_of(8, index)).text();
        let expected = Outcome::Printed(run(&script));
        for pieces in [None, Some(1), Some(2)] {
            assert_eq!(program.run(&script, pieces).unwrap(), expected);
        }
    }
    assert!(Program::new(Path::new("no such program"))
        .run(b"", None)
        .is_err());
}

fn compare(arguments: &[&str]) -> Output {
    Command::new(env!("CARGO_BIN_EXE_compare"))
        .args(arguments)
        .output()
        .unwrap()
}

#[test]
fn the_program_agrees_with_itself() {
    for mode in [
        &["--scripts", "40"][..],
        &["--scripts", "1", "--lost", "--seed", "4"],
        &["--cut", "--scripts", "5", "--seed", "3"],
        &["--seconds", "1"],
    ] {
        let output = compare(&[&[PASSDAY], mode].concat());
        assert!(output.status.success());
        assert!(contains(&output.stdout, "no difference"));
    }
}

#[test]
fn what_is_not_understood_is_refused() {
    for arguments in [
        &[][..],
        &[PASSDAY, PASSDAY],
        &[PASSDAY, "--scripts"],
        &[PASSDAY, "--scripts", "many"],
        &[PASSDAY, "--other"],
    ] {
        assert_eq!(compare(arguments).status.code(), Some(2));
    }
    let output = compare(&["no such program", "--scripts", "1"]);
    assert_eq!(output.status.code(), Some(2));
}

/// A program that prints something else in one place.
#[cfg(unix)]
fn wrong_program(folder: &Path) -> PathBuf {
    use std::os::unix::fs::PermissionsExt;
    fs::create_dir_all(folder).unwrap();
    let path = folder.join("wrong");
    let text = format!("#!/bin/sh\n'{PASSDAY}' | sed 's/DL_ERROR_RESP.01/&01/'\n");
    fs::write(&path, text).unwrap();
    fs::set_permissions(&path, fs::Permissions::from_mode(0o755)).unwrap();
    path
}

#[cfg(unix)]
#[test]
fn a_difference_is_found_and_cut_to_the_shortest() {
    let folder = Path::new(env!("CARGO_TARGET_TMPDIR")).join("difference");
    let wrong = wrong_program(&folder);
    let kept = folder.join("kept");
    let output = compare(&[
        wrong.to_str().unwrap(),
        "--seed",
        "2",
        "--keep",
        kept.to_str().unwrap(),
    ]);
    assert_eq!(output.status.code(), Some(1));
    let script = fs::read(kept.join("difference.script")).unwrap();
    let text = String::from_utf8(script.clone()).unwrap();
    let lines: Vec<&str> = text.lines().collect();
    // A session is opened and sent the shortest command that is refused so.
    assert_eq!(lines.len(), 2);
    assert!(lines[0].starts_with("open\t"));
    assert!(lines[1].starts_with("rx\t") && lines[1].len() <= 10);
    let expected = fs::read(kept.join("difference.expected")).unwrap();
    assert_eq!(expected, run(&script));
    let printed = fs::read(kept.join("difference.printed")).unwrap();
    assert!(contains(&printed, "DL_ERROR_RESP\t0101"));
    assert!(contains(&output.stdout, "DL_ERROR_RESP\\t0101"));
}
