//! Reads equations, as on paper or as bytes, from standard input, a line each,
//! and prints each the other way.

use std::process::ExitCode;

use reference::lines::{run_program, Feed};
use reference::paper::program::Equations;

fn main() -> ExitCode {
    run_program("equations", |_| Ok(Feed::new(Equations)))
}
