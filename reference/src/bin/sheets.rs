//! Writes random answer sheets to a folder and prints what they reach.

use std::io::{self, Write};
use std::process::ExitCode;

use reference::desk::coverage::SheetCoverage;
use reference::folder::{self, Texts};
use reference::generator;

struct Sheets(SheetCoverage);

impl Texts for Sheets {
    fn text(&mut self, seed: u64) -> Vec<u8> {
        let text = generator::answer_sheet(seed).text();
        self.0.note(&text);
        text
    }

    fn print(&self, mut output: &mut dyn Write) -> io::Result<()> {
        self.0.print(&mut output)
    }
}

fn main() -> ExitCode {
    folder::run("sheets", "sheet", &mut Sheets(SheetCoverage::new()))
}
