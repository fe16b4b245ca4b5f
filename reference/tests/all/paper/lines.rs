//! The program `equations`: its lines, and what it prints for them.

use std::io::Write;
use std::process::{Command, Stdio};

use reference::generator::paper::{lines, odd_line, Lines};
use reference::lines::{Feed, LINE_MOST};
use reference::paper::program::{answer, run, Equations};
use reference::program::{Outcome, Program};
use reference::random::Random;

const EQUATIONS: &str = env!("CARGO_BIN_EXE_equations");

fn printed(input: &str) -> String {
    String::from_utf8(run(input.as_bytes())).unwrap()
}

#[test]
fn a_line_each_way() {
    assert_eq!(
        printed(
            "text\tTITLE == \"m\"\nbytes\t832200016d\ntext\tTITLE > \"m\"\nbytes\t932200016d\n\
             bytes\t832200016d00\n"
        ),
        "bytes\t832200016d\ntext\tTITLE == \"m\"\nwrong\t9\torder\nrefused\t8\nrefused\tmark\n"
    );
    assert_eq!(printed(""), "");
    // The rest of the line is the text, tabs included; nothing is no text.
    assert_eq!(printed("text\t\tTITLE\t==\t5\t"), "bytes\t8022000105\n");
    assert_eq!(printed("text\t\n"), "wrong\t1\titem\n");
    assert_eq!(printed("text\tTITLE==5\r\n"), "wrong\t9\tconnective\n");
    assert_eq!(printed("bytes\t\n"), "refused\t8\n");
}

#[test]
fn lines_that_cannot_be_read() {
    for line in [
        "",
        "text",
        "bytes",
        "Text\tTITLE==5",
        " text\tTITLE==5",
        "texts\tTITLE==5",
        "text TITLE==5",
        "bytes\t8",
        "bytes\t8G",
        "bytes\tFF",
        "bytes\t00 ",
        "bytes\t00\t00",
        "bytes\t00\r",
        "byte\t00",
        "time\t0",
    ] {
        let input = format!("text\tTITLE==5\n{line}\ntext\tTITLE==5\n");
        assert_eq!(printed(&input), "bytes\t8022000105\nerror\t2\n", "{line}");
    }
}

#[test]
fn the_longest_line() {
    let text = format!("text\tTITLE==5{}", " ".repeat(LINE_MOST - 13));
    assert_eq!(text.len(), LINE_MOST);
    for ending in ["", "\n"] {
        assert_eq!(printed(&(text.clone() + ending)), "bytes\t8022000105\n");
        assert_eq!(printed(&(text.clone() + " " + ending)), "error\t1\n");
    }
    // A line that is too long is seen before it ends.
    let mut feed = Feed::new(Equations);
    let mut output = Vec::new();
    feed.feed((text + " ").as_bytes(), &mut output).unwrap();
    assert!(feed.has_ended());
    let bytes = format!("bytes\t{}", "0".repeat(LINE_MOST - 6));
    assert_eq!(printed(&bytes), "refused\t33\n");
}

#[test]
fn every_line_has_one_answer() {
    let mut random = Random::new(31);
    for _ in 0..3000 {
        for kind in [Lines::Mixed, Lines::Text, Lines::Bytes] {
            for line in lines(&mut random, kind) {
                let answer = answer(&line).expect("a line that can be read");
                assert!(!answer.contains(&b'\n'));
                let word = answer.split(|&byte| byte == b'\t').next().unwrap();
                assert!([&b"bytes"[..], b"text", b"wrong", b"refused"].contains(&word));
                if kind == Lines::Text {
                    assert!(word == b"bytes" || answer == b"refused\tbytes");
                }
            }
        }
    }
    // Some odd lines can be read, most can't.
    let odd = (0..1000).filter(|_| answer(&odd_line(&mut random)).is_none());
    assert!((400..950).contains(&odd.count()));
}

#[test]
fn the_program_prints_the_same_however_its_input_comes() {
    let mut random = Random::new(32);
    let program = Program::new(EQUATIONS.as_ref());
    for round in 0..6 {
        let mut input = Vec::new();
        while input.len() < 20_000 {
            for line in lines(&mut random, Lines::Mixed) {
                input.extend(line);
                input.push(b'\n');
            }
        }
        if round % 2 == 0 {
            input.extend(odd_line(&mut random));
        }
        let expected = Outcome::Printed(run(&input));
        for pieces in [None, Some(round)] {
            assert_eq!(program.run(&input, pieces).unwrap(), expected);
        }
    }
}

#[test]
fn each_line_is_answered_as_it_comes() {
    let mut child = Command::new(EQUATIONS)
        .stdin(Stdio::piped())
        .stdout(Stdio::piped())
        .spawn()
        .unwrap();
    let mut input = child.stdin.take().unwrap();
    let mut output = std::io::BufReader::new(child.stdout.take().unwrap());
    for line in ["text\tTITLE==5\n", "bytes\t8022000105\n"] {
        input.write_all(line.as_bytes()).unwrap();
        input.flush().unwrap();
        let mut answer = String::new();
        std::io::BufRead::read_line(&mut output, &mut answer).unwrap();
        assert_eq!(answer, printed(line));
    }
    drop(input);
    assert!(child.wait().unwrap().success());
}
