//! Writes random scripts of class days to a folder and prints what their
//! questions reach.

use std::io::{self, Write};
use std::process::ExitCode;

use reference::class::coverage::ClassCoverage;
use reference::folder::{self, Texts};
use reference::generator;

struct ClassScripts(ClassCoverage);

impl Texts for ClassScripts {
    fn text(&mut self, seed: u64) -> Vec<u8> {
        let text = generator::class_story(seed).text();
        self.0.note(&text);
        text
    }

    fn print(&self, mut output: &mut dyn Write) -> io::Result<()> {
        self.0.print(&mut output)
    }
}

fn main() -> ExitCode {
    folder::run(
        "classscripts",
        "script",
        &mut ClassScripts(ClassCoverage::new()),
    )
}
