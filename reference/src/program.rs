//! Running another script program and taking what it prints.

use std::io::{self, Read, Write};
use std::path::{Path, PathBuf};
use std::process::{Child, ChildStdin, Command, ExitStatus, Stdio};
use std::sync::mpsc;
use std::thread;
use std::time::Duration;

use crate::random::Random;

/// A program still running after this is taken not to end.
const PATIENCE: Duration = Duration::from_secs(10);

/// How a run came out.
#[derive(Clone, Debug, PartialEq, Eq)]
pub enum Outcome {
    Printed(Vec<u8>),
    /// It was ended by a signal, as by a fault of its own.
    Killed(Vec<u8>),
    /// It did not end by itself.
    Endless,
}

pub struct Program {
    path: PathBuf,
}

impl Program {
    pub fn new(path: &Path) -> Program {
        Program {
            path: path.to_path_buf(),
        }
    }

    /// Runs the program on a script. The input comes through a pipe, in pieces
    /// of random lengths if a seed for them is given.
    pub fn run(&self, script: &[u8], pieces: Option<u64>) -> io::Result<Outcome> {
        let mut child = Command::new(&self.path)
            .stdin(Stdio::piped())
            .stdout(Stdio::piped())
            .stderr(Stdio::null())
            .spawn()?;
        let input = child.stdin.take().expect("a piped input");
        let script = script.to_vec();
        let writer = thread::spawn(move || write_in_pieces(input, &script, pieces));
        let outcome = listen(&mut child);
        writer.join().expect("the writer does not fail");
        outcome
    }
}

/// A program that ends early does not read all; that is no error.
fn write_in_pieces(mut input: ChildStdin, script: &[u8], pieces: Option<u64>) {
    let mut random = pieces.map(Random::new);
    let mut rest = script;
    while !rest.is_empty() {
        let length = match &mut random {
            Some(random) => random.between(1, rest.len().min(3000)),
            None => rest.len(),
        };
        if input.write_all(&rest[..length]).is_err() {
            return;
        }
        rest = &rest[length..];
    }
}

/// Reads all that the child prints and waits for its end.
fn listen(child: &mut Child) -> io::Result<Outcome> {
    let mut output = child.stdout.take().expect("a piped output");
    let (sender, receiver) = mpsc::channel();
    let reader = thread::spawn(move || {
        let mut printed = Vec::new();
        let result = output.read_to_end(&mut printed).map(|_| printed);
        // The receiver is gone if the program took too long.
        let _ = sender.send(result);
    });
    let printed = match receiver.recv_timeout(PATIENCE) {
        Ok(printed) => printed?,
        Err(_) => {
            child.kill()?;
            child.wait()?;
            return Ok(Outcome::Endless);
        }
    };
    reader.join().expect("the reader does not fail");
    if was_killed(child.wait()?) {
        Ok(Outcome::Killed(printed))
    } else {
        Ok(Outcome::Printed(printed))
    }
}

/// Without an exit code a signal ended it.
fn was_killed(status: ExitStatus) -> bool {
    status.code().is_none()
}
