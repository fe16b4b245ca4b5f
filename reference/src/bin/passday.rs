//! Reads a script from standard input and prints what the server answers.

use std::process::ExitCode;

use reference::lines::run_program;
use reference::script::{Script, Unwatched};

fn main() -> ExitCode {
    run_program("passday", |output| Script::begin(Unwatched, output))
}
