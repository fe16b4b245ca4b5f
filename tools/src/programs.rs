//! Runs the proved programs.
use std::io::{self, Write};
use std::path::{Path, PathBuf};
use std::process::{Command, Stdio};
use std::thread;

/// The checkout whose proved programs answer.
pub struct Home {
    folder: PathBuf,
}

fn other(words: String) -> io::Error {
    io::Error::new(io::ErrorKind::Other, words)
}

impl Home {
    pub fn new(folder: impl AsRef<Path>) -> Home {
        let folder = folder.as_ref().to_path_buf();
        Home { folder }
    }

    /// All that a command of the checkout prints for an input, and whether it ended well.
    fn ask(&self, command: &str, words: &[&str], input: &[u8]) -> io::Result<(Vec<u8>, bool)> {
        let mut child = Command::new(self.folder.join(command))
            .args(words)
            .stdin(Stdio::piped())
            .stdout(Stdio::piped())
            .spawn()?;
        let mut to = child.stdin.take().expect("a piped input");
        let input = input.to_vec();
        // a program that ends at a line that it can't read takes no more
        let writer = thread::spawn(move || drop(to.write_all(&input)));
        let output = child.wait_with_output()?;
        writer.join().expect("the writer does not fail");
        Ok((output.stdout, output.status.success()))
    }

    /// All that a proved program prints for an input.
    pub fn run(&self, program: &str, input: &[u8]) -> io::Result<Vec<u8>> {
        match self.ask(&format!("target/bin/{program}"), &[], input) {
            Ok((printed, true)) => Ok(printed),
            Ok((_, false)) => Err(other(format!("{program} was ended"))),
            Err(error) => Err(other(format!(
                "{program} can't be started: {}",
                error.kind()
            ))),
        }
    }

    /// Why a script can't be read, as ./run says it; for a class's script the words of `classday` can be read too.
    pub fn reason(&self, script: &[u8], class: bool) -> String {
        let words: &[&str] = if class { &["--class"] } else { &[] };
        let told = self.ask("scripts/explain-line", words, script);
        told.map_or(String::new(), |(told, _)| {
            String::from_utf8_lossy(&told).trim_end().to_string()
        })
    }

    /// The answers of `equations`, one for each line, in one run of it.
    pub fn equations(&self, lines: &[Vec<u8>]) -> io::Result<Vec<String>> {
        if lines.is_empty() {
            return Ok(Vec::new());
        }
        let mut input = Vec::new();
        for line in lines {
            input.extend(line);
            input.push(b'\n');
        }
        let printed = self.run("equations", &input)?;
        let text = String::from_utf8_lossy(&printed);
        let answers: Vec<String> = text.lines().map(str::to_string).collect();
        match answers.len() == lines.len() {
            true => Ok(answers),
            false => Err(other("equations could not read a line".to_string())),
        }
    }
}
