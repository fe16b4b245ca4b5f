//! Reads a script from standard input and prints the right answer sheet.

use std::process::ExitCode;

use reference::desk::sheet;
use reference::lines::run_program;

fn main() -> ExitCode {
    run_program("sheet-reference", |_| Ok(sheet()))
}
