//! Writes random scripts to a folder and prints what they reach.

use std::io::{self, Write};
use std::process::ExitCode;

use reference::coverage::Coverage;
use reference::folder::{self, Texts};
use reference::generator;
use reference::script;

struct Scripts(Coverage);

impl Texts for Scripts {
    fn text(&mut self, seed: u64) -> Vec<u8> {
        let text = generator::story(seed).text();
        let (_, driver) = script::run_watched(&text, Coverage::new());
        self.0.add(&driver.watch);
        text
    }

    fn print(&self, mut output: &mut dyn Write) -> io::Result<()> {
        self.0.print(&mut output)
    }
}

fn main() -> ExitCode {
    folder::run("scripts", "script", &mut Scripts(Coverage::new()))
}
