//! Programs that write random texts to a folder: NAME SEED COUNT DIR.

use std::io::{self, BufWriter, Write};
use std::path::Path;
use std::process::ExitCode;

use crate::generator::seed_of;

/// Texts made at random.
pub trait Texts {
    /// The text of a seed.
    fn text(&mut self, seed: u64) -> Vec<u8>;

    /// Prints what all of them reach.
    fn print(&self, output: &mut dyn Write) -> io::Result<()>;
}

/// The seed, how many texts, and the folder for them.
fn asked(arguments: &[String]) -> Option<(u64, u64, &Path)> {
    match arguments {
        [seed, count, folder] => Some((seed.parse().ok()?, count.parse().ok()?, Path::new(folder))),
        _ => None,
    }
}

fn write_texts(
    arguments: (u64, u64, &Path),
    ending: &str,
    texts: &mut dyn Texts,
) -> io::Result<()> {
    let (seed, count, folder) = arguments;
    std::fs::create_dir_all(folder)?;
    for index in 0..count {
        let name = format!("{seed}-{index}.{ending}");
        std::fs::write(folder.join(name), texts.text(seed_of(seed, index)))?;
    }
    let mut output = BufWriter::new(io::stdout().lock());
    texts.print(&mut output)?;
    output.flush()
}

/// The whole program of this name: the files that it writes end as `ending` says.
pub fn run(name: &str, ending: &str, texts: &mut dyn Texts) -> ExitCode {
    let arguments: Vec<String> = std::env::args().skip(1).collect();
    let asked = match asked(&arguments) {
        Some(asked) => asked,
        None => {
            eprintln!("usage: {name} SEED COUNT DIR");
            return ExitCode::from(2);
        }
    };
    match write_texts(asked, ending, texts) {
        Ok(()) => ExitCode::SUCCESS,
        Err(error) if error.kind() == io::ErrorKind::BrokenPipe => ExitCode::SUCCESS,
        Err(error) => {
            eprintln!("{name}: {error}");
            ExitCode::FAILURE
        }
    }
}
