//! Reads the script of a class day from standard input and prints what the
//! server answers, and why files are listed or not.

use std::process::ExitCode;

use reference::class;
use reference::lines::run_program;

fn main() -> ExitCode {
    run_program("class-reference", |output| class::begin(output))
}
