//! The script program by what it prints.

use crate::common::{ack, data, data_end, download, hex, nak, select, select_above, upload};
use reference::draft::Draft;
use reference::packet::Packet;
use reference::packet::Type;
use reference::random::Random;
use reference::script::{run, to_hex, Line, Script, Unwatched, LINE_MOST};
use std::io::Write;
use std::process::{Command, Stdio};

const HEADING: &str = "session\tpacket\tinformation\n";
const F80: &str = "aa55 0100 04 00000000 0200 08 0000000000000000 0300 03 000000 \
    0400 04 50000000 0500 04 00000000 0600 04 00000000 0700 01 00 0800 01 00 \
    0900 02 0000 0a00 02 1a02 0b00 02 5000 1200 04 00000000 0000 00";

fn printed(script: &str) -> String {
    String::from_utf8(run(script.as_bytes())).unwrap()
}

/// What is printed between the first line and the last, for lines after
/// `open 1`, without the login.
fn told(lines: &[String]) -> Vec<String> {
    let script = format!("open\t1\n{}\n", lines.join("\n"));
    let output = printed(&script);
    let output = output
        .strip_prefix(HEADING)
        .and_then(|rest| rest.strip_prefix("1\tLOGIN_RESP\t0000000004\n"))
        .expect("the heading and the login");
    let mut lines: Vec<String> = output.lines().map(str::to_string).collect();
    let last = lines.pop().unwrap();
    assert!(last.starts_with("blocks\t"));
    lines
}

fn rx(parts: &[Vec<u8>]) -> String {
    format!("rx\t1\t{}", to_hex(&parts.concat()))
}

/// The upload of the smallest file in one line.
fn store() -> String {
    rx(&[upload(80), data(&hex(F80)), data_end()])
}

const GO: &str = "1\tUL_GO_RESP\t0100000000000000";
const ACKNOWLEDGED: &str = "1\tUL_ACK_RESP\t";

#[test]
fn the_papers_example() {
    assert_eq!(
        printed("time\t0\nopen\t1\nrx\t1\t08030000000050000000\n"),
        "session\tpacket\tinformation\n\
         1\tLOGIN_RESP\t0000000004\n\
         1\tUL_GO_RESP\t0100000000000000\n\
         blocks\t127\t1\n"
    );
}

#[test]
fn the_smallest_file_is_the_papers() {
    assert_eq!(Draft::new().bytes(), hex(F80));
}

#[test]
fn empty_input() {
    assert_eq!(printed(""), format!("{HEADING}blocks\t128\t0\n"));
}

#[test]
fn the_last_line_counts_without_its_newline() {
    let whole = printed("time\t7\nopen\t1\n");
    assert_eq!(printed("time\t7\nopen\t1"), whole);
    assert!(whole.contains("1\tLOGIN_RESP\t0700000004\n"));
}

#[test]
fn unreadable_lines() {
    let lines = [
        "",
        " ",
        "\t",
        "time",
        "time\t",
        "time\t-1",
        "time\t+1",
        "time\t 1",
        "time\t1 ",
        "time\t1\t",
        "time\t4294967296",
        "time\t99999999999999999999999",
        "time\t0x10",
        "time\t1\r",
        "Time\t1",
        "TIME\t1",
        " time\t1",
        "time 1",
        "open",
        "open\t",
        "open\t1\t",
        "open\tone",
        "drop",
        "drop\t1\t1",
        "drop\t\t1",
        "close\t1",
        "rx",
        "rx\t1",
        "rx\t\t00",
        "rx\t1\t0",
        "rx\t1\t000",
        "rx\t1\t0A",
        "rx\t1\t0g",
        "rx\t1\t00\t",
        "rx\t1\t00\t00",
        "rx\t1\t00 00",
        "rx\t1\t 00",
        "rx\t1\t00\r",
        "rx\t1\t\u{e9}",
        "rx\tx\t00",
        "rx\t4294967296\t00",
        "tx\t1\t00",
        "# remark",
        "time\t1\0",
        "\u{feff}time\t1",
    ];
    for line in lines {
        assert_eq!(Line::parse(line.as_bytes()), None, "{line:?}");
        let script = format!("open\t1\nopen\t2\n{line}\nopen\t3\n");
        let expected = format!(
            "{HEADING}1\tLOGIN_RESP\t0000000004\n2\tLOGIN_RESP\t0000000004\n\
             error\t3\nblocks\t128\t0\n"
        );
        assert_eq!(printed(&script), expected, "{line:?}");
    }
    // Bytes that are no text.
    let script = b"open\t1\nrx\t1\t\xff\xfe\n";
    let output = run(script);
    assert!(output.ends_with(b"error\t2\nblocks\t128\t0\n"));
}

#[test]
fn an_unreadable_line_has_no_effect() {
    // The first bytes would be an upload.
    let output = printed("open\t1\nrx\t1\t08030000000050000000zz\n");
    assert!(output.ends_with("04\nerror\t2\nblocks\t128\t0\n"));
}

#[test]
fn an_empty_line_at_the_end_or_the_beginning() {
    assert!(printed("time\t1\n\n").ends_with("error\t2\nblocks\t128\t0\n"));
    assert!(printed("\ntime\t1\n").ends_with("error\t1\nblocks\t128\t0\n"));
    assert!(printed("\n").ends_with("error\t1\nblocks\t128\t0\n"));
}

#[test]
fn numbers_may_have_leading_zeros() {
    let output = printed("time\t0000000000000000000004294967295\nopen\t0002\n");
    assert_eq!(
        output,
        format!("{HEADING}2\tLOGIN_RESP\tffffffff04\nblocks\t128\t0\n")
    );
}

#[test]
fn the_longest_line() {
    let zeros = |count: usize| format!("time\t{}", "0".repeat(count - 5));
    assert_eq!(zeros(LINE_MOST).len(), 131_072);
    for ending in ["", "\n"] {
        let fits = format!("{}{ending}", zeros(LINE_MOST));
        assert!(!printed(&fits).contains("error"));
        let beyond = format!("time\t3\n{}{ending}", zeros(LINE_MOST + 1));
        assert!(printed(&beyond).ends_with("error\t2\nblocks\t128\t0\n"));
    }
    let long = format!("open\t1\nrx\t1\t{}\n", "00".repeat(100_000));
    assert!(printed(&long).ends_with("error\t2\nblocks\t128\t0\n"));
}

#[test]
fn refusals_of_sessions() {
    assert_eq!(
        printed(
            "open\t0\nopen\t5\nopen\t4294967295\ndrop\t1\nrx\t1\t00\nrx\t1\t\n\
             open\t1\nopen\t1\nrx\t1\t\ndrop\t1\ndrop\t1\nrx\t007\t0120\n"
        ),
        format!(
            "{HEADING}0\trefused\t34\n5\trefused\t34\n4294967295\trefused\t34\n\
             1\trefused\t34\n1\trefused\t34\n1\trefused\t34\n\
             1\tLOGIN_RESP\t0000000004\n1\trefused\t34\n1\trefused\t34\n\
             7\trefused\t34\nblocks\t128\t0\n"
        )
    );
}

#[test]
fn a_refused_line_prints_one_refusal() {
    let output = printed("rx\t1\t000000000000000000\n");
    assert_eq!(output, format!("{HEADING}1\trefused\t34\nblocks\t128\t0\n"));
}

#[test]
fn a_closing_drops_the_rest_of_the_line() {
    assert_eq!(
        printed("open\t1\nrx\t1\t012008030000000050000000\nrx\t1\t00\n"),
        format!("{HEADING}1\tLOGIN_RESP\t0000000004\n1\tclosed\n1\trefused\t34\nblocks\t128\t0\n")
    );
}

#[test]
fn the_clock_may_go_back() {
    assert_eq!(
        printed("time\t256\nopen\t1\ntime\t1\nopen\t2\ndrop\t1\nopen\t1\n"),
        format!(
            "{HEADING}1\tLOGIN_RESP\t0001000004\n2\tLOGIN_RESP\t0100000004\n\
             1\tLOGIN_RESP\t0100000004\nblocks\t128\t0\n"
        )
    );
}

#[test]
fn several_packets_in_one_line() {
    assert_eq!(told(&[store()]), [GO, ACKNOWLEDGED]);
}

#[test]
fn downloads_are_pumped_after_the_line() {
    let stored = to_hex(&{
        let mut file = hex(F80);
        file[5] = 1;
        file[12..20].copy_from_slice(b"00000001");
        file[43] = 1;
        file[63..65].copy_from_slice(&[0x9e, 0x03]);
        file[73] = 1;
        file
    });
    let data_line = format!("1\tDATA\t{stored}");
    // The upload's answer comes first: the pump follows the whole line.
    let lines = told(&[store(), rx(&[download(1, 0, 0), upload(80)])]);
    assert_eq!(
        lines[2..],
        [
            "1\tUL_GO_RESP\t0200000000000000",
            &data_line,
            "1\tDATA_END\t"
        ]
    );
    // So an acknowledgement in the same line comes before DATA_END.
    let lines = told(&[store(), rx(&[download(1, 0, 0), ack(0)])]);
    assert_eq!(lines[2..], ["1\tclosed"]);
    let lines = told(&[store(), rx(&[download(1, 0, 0)]), rx(&[ack(0)])]);
    assert_eq!(
        lines[2..],
        [&data_line, "1\tDATA_END\t", "1\tDL_COMPLETED_RESP\t"]
    );
}

#[test]
fn naks_before_data_end() {
    let lines = told(&[store(), rx(&[download(1, 0, 0), nak()])]);
    assert_eq!(lines[2..], ["1\tDATA_END\t", "1\tDL_ABORTED_RESP\t"]);
    let lines = told(&[store(), rx(&[download(1, 0, 0), nak(), nak()])]);
    assert_eq!(lines[2..], ["1\tDATA_END\t", "1\tclosed"]);
    let lines = told(&[store(), rx(&[download(1, 0, 0), nak(), upload(80)])]);
    assert_eq!(
        lines[2..],
        [
            "1\tDATA_END\t",
            "1\tUL_GO_RESP\t0200000000000000",
            "1\tDL_ABORTED_RESP\t"
        ]
    );
}

#[test]
fn a_half_packet_behind_a_download_is_still_pumped() {
    let line = rx(&[download(1, 80, 0), vec![0x01]]);
    let lines = told(&[store(), line, "rx\t1\t0c00".to_string()]);
    assert_eq!(lines[2..], ["1\tDATA_END\t", "1\tDL_COMPLETED_RESP\t"]);
}

#[test]
fn directories_and_selects_in_the_wrong_moment() {
    let directory = Packet::new(Type::DirShortCmd, &[1, 0, 0, 0]).bytes();
    let lines = told(&[store(), rx(&[directory.clone(), vec![0x00]])]);
    assert!(lines[2].starts_with("1\tDATA\taa550100040100000002000830303030303030310300"));
    assert_eq!(lines[3..], ["1\tDATA_END\t"]);
    let lines = told(&[store(), rx(&[directory.clone(), nak(), nak()])]);
    assert_eq!(lines[2..], ["1\tDATA_END\t"]);
    let lines = told(&[store(), rx(&[directory.clone(), directory.clone()])]);
    assert_eq!(lines[2..], ["1\tclosed"]);
    let lines = told(&[store(), rx(&[download(1, 0, 0), directory])]);
    assert_eq!(lines[2..], ["1\tclosed"]);
    let lines = told(&[store(), rx(&[download(1, 80, 0)]), rx(&[select_above(0)])]);
    assert_eq!(lines[2..], ["1\tDATA_END\t", "1\tclosed"]);
}

#[test]
fn selects_and_downloads_of_number_0() {
    let next = rx(&[download(0, 80, 0)]);
    let lines = told(&[
        next.clone(),
        store(),
        rx(&[select_above(0)]),
        next.clone(),
        rx(&[ack(0)]),
        rx(&[select(&hex("93 2200 01 6d"))]),
        next.clone(),
        rx(&[select_above(u32::MAX)]),
        next,
    ]);
    let expected = [
        "1\tDL_ERROR_RESP\t05",
        GO,
        ACKNOWLEDGED,
        "1\tSELECT_RESP\t0100",
        "1\tDATA_END\t",
        "1\tDL_COMPLETED_RESP\t",
        "1\tDL_ERROR_RESP\t08",
        "1\tDL_ERROR_RESP\t05",
        "1\tSELECT_RESP\t0000",
        "1\tDL_ERROR_RESP\t05",
    ];
    assert_eq!(lines, expected);
}

#[test]
fn the_blocks_held_at_the_end() {
    let partial = rx(&[upload(80), data(&[0; 20])]);
    let script = format!("open\t1\n{}\n{partial}\ndrop\t1\n", store());
    assert!(printed(&script).ends_with("blocks\t126\t2\n"));
    let overlong = rx(&[upload(80), data(&[0; 81])]);
    let script = format!("open\t1\n{overlong}\n");
    assert!(printed(&script).ends_with("1\tUL_NAK_RESP\t10\nblocks\t128\t0\n"));
    let full = rx(&[upload(32_768)]);
    let script = format!("open\t1\n{full}\n");
    assert!(printed(&script).ends_with("blocks\t0\t128\n"));
}

#[test]
fn a_whole_store_in_one_line() {
    let file = Draft::new().with_body(&vec![0x5a; 32_768 - 80]).bytes();
    let line = rx(&[upload(32_768), data(&file), data_end()]);
    let lines = told(&[line, rx(&[download(1, 0, 0)])]);
    assert_eq!(lines.len(), 2 + 128 + 1);
    assert!(lines[2..130].iter().all(|line| line.len() == 7 + 512));
}

#[test]
fn lines_are_written_as_they_are_read() {
    for line in [
        Line::Time(0),
        Line::Time(u32::MAX),
        Line::Open(1),
        Line::Drop(4_000_000_000),
        Line::Rx(3, vec![]),
        Line::Rx(3, vec![0, 10, 255]),
    ] {
        assert_eq!(Line::parse(line.to_string().as_bytes()), Some(line));
    }
}

fn some_script() -> String {
    let mut lines = vec!["open\t1".to_string(), store()];
    lines.push(rx(&[select_above(0)]));
    lines.push(rx(&[download(0, 0, 0)]));
    lines.push(rx(&[ack(0)]));
    lines.push("time\t9".to_string());
    lines.push("open\t2".to_string());
    lines.push("rx\t2\t0120".to_string());
    lines.push("nonsense".to_string());
    lines.push("open\t2".to_string());
    lines.join("\n")
}

#[test]
fn the_input_may_come_in_any_pieces() {
    let script = some_script();
    let expected = printed(&script);
    let mut random = Random::new(10);
    for most in [1, 2, 3, 50, 400] {
        let mut output = Vec::new();
        let mut running = Script::begin(Unwatched, &mut output).unwrap();
        let mut rest = script.as_bytes();
        while !rest.is_empty() {
            let piece = random.between(1, most.min(rest.len()));
            running.feed(&rest[..piece], &mut output).unwrap();
            rest = &rest[piece..];
        }
        running.finish(&mut output).unwrap();
        assert_eq!(String::from_utf8(output).unwrap(), expected);
    }
}

fn passday() -> Command {
    let mut command = Command::new(env!("CARGO_BIN_EXE_passday"));
    command.stdin(Stdio::piped()).stdout(Stdio::piped());
    command
}

#[test]
fn the_program_prints_what_the_library_does() {
    for script in [some_script(), String::new(), "open\t1".to_string()] {
        let mut child = passday().spawn().unwrap();
        child
            .stdin
            .take()
            .unwrap()
            .write_all(script.as_bytes())
            .unwrap();
        let output = child.wait_with_output().unwrap();
        assert!(output.status.success());
        assert_eq!(output.stdout, run(script.as_bytes()));
    }
}

#[test]
fn the_program_ends_quietly_when_nobody_reads() {
    let mut child = passday().stderr(Stdio::piped()).spawn().unwrap();
    drop(child.stdout.take());
    let mut input = child.stdin.take().unwrap();
    // It may have ended before all is written.
    let _ = input.write_all("open\t1\ndrop\t1\n".repeat(20_000).as_bytes());
    drop(input);
    let output = child.wait_with_output().unwrap();
    assert!(output.status.success());
    assert!(output.stderr.is_empty());
}
