//! Prints random lines for the program `equations`.

use std::io::{self, BufWriter, Write};
use std::process::ExitCode;

use reference::generator::paper::{lines, odd_line, Lines};
use reference::generator::seed_of;
use reference::random::Random;

const USAGE: &str = "usage: paperlines SEED COUNT (mixed | text | bytes | odd)
  mixed    texts and bytes, some of them wrong or at a border, so many lines at least
  text     texts that are turned into bytes
  bytes    bytes that are accepted
  odd      three lines, and so many that can't be read or nearly so, in random order";

struct Asked {
    seed: u64,
    count: usize,
    /// None for odd ones.
    kind: Option<Lines>,
}

impl Asked {
    fn read(arguments: &[String]) -> Option<Asked> {
        match arguments {
            [seed, count, word] => Some(Asked {
                seed: seed.parse().ok()?,
                count: count.parse().ok()?,
                kind: match word.as_str() {
                    "odd" => None,
                    word => Some(Lines::of(word)?),
                },
            }),
            _ => None,
        }
    }

    fn print(&self) -> io::Result<()> {
        let mut random = Random::new(seed_of(self.seed, 0));
        let mut output = BufWriter::new(io::stdout().lock());
        match self.kind {
            None => output.write_all(&odd_input(&mut random, self.count))?,
            Some(kind) => {
                let mut printed = 0;
                while printed < self.count {
                    for line in lines(&mut random, kind) {
                        output.write_all(&[&line[..], b"\n"].concat())?;
                        printed += 1;
                    }
                }
            }
        }
        output.flush()
    }
}

/// The last line has its newline or not.
fn odd_input(random: &mut Random, count: usize) -> Vec<u8> {
    let mut all = Vec::new();
    for _ in 0..3 {
        all.push(lines(random, Lines::Mixed).remove(0));
    }
    for _ in 0..count {
        let at = random.below(all.len() + 1);
        all.insert(at, odd_line(random));
    }
    let mut input = all.join(&b'\n');
    if random.chance(2, 3) {
        input.push(b'\n');
    }
    input
}

fn main() -> ExitCode {
    let arguments: Vec<String> = std::env::args().skip(1).collect();
    let asked = match Asked::read(&arguments) {
        Some(asked) => asked,
        None => {
            eprintln!("{USAGE}");
            return ExitCode::from(2);
        }
    };
    match asked.print() {
        Ok(()) => ExitCode::SUCCESS,
        Err(error) if error.kind() == io::ErrorKind::BrokenPipe => ExitCode::SUCCESS,
        Err(error) => {
            eprintln!("paperlines: {error}");
            ExitCode::FAILURE
        }
    }
}
