//! Reads an answer sheet from standard input and prints its marks.

use std::process::ExitCode;

use reference::desk::desk;
use reference::lines::run_program;

fn main() -> ExitCode {
    run_program("desk-reference", |_| Ok(desk()))
}
