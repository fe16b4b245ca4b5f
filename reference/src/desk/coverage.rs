//! A count of what answer sheets reach.

use std::collections::BTreeMap;
use std::io::{self, Write};

use super::{parted, Desk};
use crate::lines::LINE_MOST;
use crate::script::Line;

const ROWS: [&str; 20] = [
    "right, time",
    "right, open",
    "right, drop",
    "right, rx",
    "right, no field",
    "right, an empty field",
    "right, more than one packet",
    "right, closed",
    "right, refused",
    "right, with leading zeros in the script's field",
    "right, a line of 131,072 bytes",
    "wrong, no field where there are some",
    "wrong, fields where there are none",
    "wrong, fields left out",
    "wrong, fields over",
    "wrong, as many fields and one differs",
    "wrong, as many fields and more differ",
    "wrong, a line of 131,072 bytes",
    "refused 37, a line too long",
    "refused 37, a line that can't be read",
];

pub struct SheetCoverage {
    counts: BTreeMap<&'static str, usize>,
}

impl Default for SheetCoverage {
    fn default() -> SheetCoverage {
        SheetCoverage::new()
    }
}

impl SheetCoverage {
    pub fn new() -> SheetCoverage {
        SheetCoverage {
            counts: ROWS.iter().map(|row| (*row, 0)).collect(),
        }
    }

    /// The rows that nothing reached.
    pub fn missing(&self) -> Vec<&str> {
        let empty = self.counts.iter().filter(|(_, count)| **count == 0);
        empty.map(|(row, _)| *row).collect()
    }

    /// The rows that were counted and are not among those foreseen.
    pub fn unforeseen(&self) -> Vec<&str> {
        let other = self.counts.keys().filter(|row| !ROWS.contains(row));
        other.copied().collect()
    }

    pub fn print(&self, output: &mut impl Write) -> io::Result<()> {
        for (row, count) in &self.counts {
            writeln!(output, "{count}\t{row}")?;
        }
        Ok(())
    }

    fn count(&mut self, row: &'static str) {
        *self.counts.entry(row).or_default() += 1;
    }

    /// Marks a sheet and counts what its lines reach.
    pub fn note(&mut self, sheet: &[u8]) {
        let mut desk = Desk::new();
        if sheet.is_empty() {
            return;
        }
        let sheet = sheet.strip_suffix(b"\n").unwrap_or(sheet);
        for line in sheet.split(|&byte| byte == b'\n') {
            if line.len() > LINE_MOST {
                return self.count("refused 37, a line too long");
            }
            let (script, answers) = match parted(line) {
                Some(parts) => parts,
                None => return self.count("refused 37, a line that can't be read"),
            };
            let (right, server) = desk.judge(line).expect("a line that can be read");
            if right {
                self.note_right(line, &script, &server);
            } else {
                self.note_wrong(line, &answers, &server);
            }
        }
    }

    fn note_right(&mut self, line: &[u8], script: &Line, server: &[Vec<u8>]) {
        self.count(match script {
            Line::Time(_) => "right, time",
            Line::Open(_) => "right, open",
            Line::Drop(_) => "right, drop",
            Line::Rx(..) => "right, rx",
        });
        let has = |word: &[u8]| server.iter().any(|field| field == word);
        let reached = [
            ("right, no field", server.is_empty()),
            ("right, an empty field", has(b"")),
            ("right, more than one packet", server.len() > 3),
            ("right, closed", has(b"closed")),
            ("right, refused", has(b"refused")),
            (
                "right, with leading zeros in the script's field",
                !line.starts_with(script.to_string().as_bytes()),
            ),
            ("right, a line of 131,072 bytes", line.len() == LINE_MOST),
        ];
        for (row, _) in reached.iter().filter(|(_, reached)| *reached) {
            self.count(row);
        }
    }

    fn note_wrong(&mut self, line: &[u8], answers: &[Vec<u8>], server: &[Vec<u8>]) {
        let pairs = answers.iter().zip(server);
        let differing = pairs.filter(|(answer, server)| answer != server).count();
        self.count(match (answers.len(), server.len()) {
            (0, _) => "wrong, no field where there are some",
            (_, 0) => "wrong, fields where there are none",
            (written, right) if written < right => "wrong, fields left out",
            (written, right) if written > right => "wrong, fields over",
            _ if differing == 1 => "wrong, as many fields and one differs",
            _ => "wrong, as many fields and more differ",
        });
        if line.len() == LINE_MOST {
            self.count("wrong, a line of 131,072 bytes");
        }
    }
}
