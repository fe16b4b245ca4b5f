//! Compares another script program with this one on random scripts, byte for
//! byte. At the first difference it cuts the script to a shortest one that
//! still differs and keeps it.

use std::fs;
use std::io;
use std::path::{Path, PathBuf};
use std::process::ExitCode;
use std::time::{Duration, Instant};

use reference::class;
use reference::desk;
use reference::generator::{self, seed_of};
use reference::program::{Outcome, Program};
use reference::random::Random;
use reference::script;
use reference::shorten::shorten;
use reference::variants::{self, Cutting};

const USAGE: &str = "usage: compare PROGRAM [--scripts N] [--seed S] [--seconds T] [--keep DIR] \
[--lost | --cut | --class | --desk | --sheet]";

/// A program that does not end makes every try slow, so shortening is given
/// up after this.
const SHORTENING: Duration = Duration::from_secs(120);

#[derive(Clone, Copy, PartialEq)]
enum Mode {
    /// Random scripts of all kinds.
    Random,
    /// Uploads whose link is lost after each byte.
    Lost,
    /// The same bytes in other pieces.
    Cut,
    /// Random scripts of class days.
    Class,
    /// Random answer sheets, to be marked.
    Desk,
    /// Random scripts, to be answered.
    Sheet,
}

impl Mode {
    /// What must be printed for a script.
    fn expected(self, script: &[u8]) -> Vec<u8> {
        match self {
            Mode::Class => class::run(script),
            Mode::Desk => desk::run_desk(script),
            Mode::Sheet => desk::run_sheet(script),
            Mode::Random | Mode::Lost | Mode::Cut => script::run(script),
        }
    }
}

struct Options {
    program: PathBuf,
    mode: Mode,
    scripts: Option<u64>,
    seed: u64,
    seconds: Option<u64>,
    keep: PathBuf,
}

impl Options {
    fn read(arguments: &[String]) -> Option<Options> {
        let mut options = Options {
            program: PathBuf::new(),
            mode: Mode::Random,
            scripts: None,
            seed: 1,
            seconds: None,
            keep: PathBuf::from("differences"),
        };
        let mut programs = 0;
        let mut rest = arguments.iter();
        while let Some(argument) = rest.next() {
            match argument.as_str() {
                "--scripts" => options.scripts = Some(rest.next()?.parse().ok()?),
                "--seed" => options.seed = rest.next()?.parse().ok()?,
                "--seconds" => options.seconds = Some(rest.next()?.parse().ok()?),
                "--keep" => options.keep = PathBuf::from(rest.next()?),
                "--lost" => options.mode = Mode::Lost,
                "--cut" => options.mode = Mode::Cut,
                "--class" => options.mode = Mode::Class,
                "--desk" => options.mode = Mode::Desk,
                "--sheet" => options.mode = Mode::Sheet,
                other if other.starts_with("--") => return None,
                other => {
                    options.program = PathBuf::from(other);
                    programs += 1;
                }
            }
        }
        (programs == 1).then_some(options)
    }

    /// How many scripts to go through where no time is given.
    fn script_count(&self) -> u64 {
        match (self.scripts, self.seconds, self.mode) {
            (Some(count), _, _) => count,
            (None, Some(_), _) => u64::MAX,
            (None, None, Mode::Lost) => 20,
            (None, None, Mode::Cut) => 300,
            (None, None, _) => 2000,
        }
    }
}

/// A script on which the programs differ.
struct Difference {
    index: u64,
    script: Vec<u8>,
    /// What must be printed for it.
    expected: Vec<u8>,
}

struct Comparison {
    program: Program,
    options: Options,
    started: Instant,
    runs: u64,
}

impl Comparison {
    /// Whether the program prints what is expected. A program must not mind
    /// how its input arrives, so some runs get it in pieces.
    fn agrees(&mut self, script: &[u8], expected: &[u8]) -> io::Result<bool> {
        let pieces = (self.runs % 4 == 0).then_some(self.runs);
        self.runs += 1;
        Ok(is_printed(&self.program.run(script, pieces)?, expected))
    }

    /// What the program makes of the script where that is not as expected.
    fn disagreement(&self, script: &[u8], pieces: Option<u64>) -> io::Result<Option<Outcome>> {
        let outcome = self.program.run(script, pieces)?;
        let expected = self.options.mode.expected(script);
        Ok((!is_printed(&outcome, &expected)).then_some(outcome))
    }

    fn time_is_up(&self) -> bool {
        match self.options.seconds {
            Some(seconds) => self.started.elapsed() >= Duration::from_secs(seconds),
            None => false,
        }
    }

    /// Goes through the scripts up to the first difference.
    fn search(&mut self) -> io::Result<(u64, Option<Difference>)> {
        let mut done = 0;
        for index in 0..self.options.script_count() {
            if self.time_is_up() {
                break;
            }
            let seed = seed_of(self.options.seed, index);
            let difference = match self.options.mode {
                Mode::Random => self.try_script(index, generator::story(seed).text())?,
                Mode::Sheet => self.try_script(index, generator::sheet_script(seed).text())?,
                Mode::Desk => self.try_script(index, generator::answer_sheet(seed).text())?,
                Mode::Class => self.try_script(index, generator::class_story(seed).text())?,
                Mode::Lost => self.try_lost(index, seed)?,
                Mode::Cut => self.try_cut(index, seed)?,
            };
            if difference.is_some() {
                return Ok((done, difference));
            }
            done += 1;
        }
        Ok((done, None))
    }

    fn try_script(&mut self, index: u64, script: Vec<u8>) -> io::Result<Option<Difference>> {
        let expected = self.options.mode.expected(&script);
        Ok((!self.agrees(&script, &expected)?).then_some(Difference {
            index,
            script,
            expected,
        }))
    }

    fn try_lost(&mut self, index: u64, seed: u64) -> io::Result<Option<Difference>> {
        let mut found = Ok(None);
        variants::lost(&generator::uploads(seed), |script| {
            found = self.try_script(index, script.to_vec());
            matches!(found, Ok(None)) && !self.time_is_up()
        });
        found
    }

    fn try_cut(&mut self, index: u64, seed: u64) -> io::Result<Option<Difference>> {
        let lines = variants::readable(&generator::story(seed));
        let cutting = Cutting::new(&lines);
        let mut random = Random::new(seed);
        let expected = script::run(&variants::text(&lines));
        for form in [
            lines,
            cutting.joined(),
            cutting.in_bytes(),
            cutting.in_pieces(&mut random),
            cutting.in_pieces(&mut random),
        ] {
            let script = variants::text(&form);
            if !self.agrees(&script, &expected)? {
                return Ok(Some(Difference {
                    index,
                    script,
                    expected,
                }));
            }
        }
        Ok(None)
    }

    /// Shortens the script, keeps it with both outputs and tells of it.
    fn report(&self, difference: &Difference) -> io::Result<()> {
        println!(
            "script {} of seed {} differs; shortening it",
            difference.index, self.options.seed
        );
        // Mostly the input may as well come at once.
        let pieces = match self.disagreement(&difference.script, None)? {
            Some(_) => None,
            None => Some(1),
        };
        let mut failure = None;
        let started = Instant::now();
        let script = shorten(&difference.script, |shorter| {
            if started.elapsed() > SHORTENING {
                return false;
            }
            match self.disagreement(shorter, pieces) {
                Ok(disagreement) => disagreement.is_some(),
                Err(error) => {
                    failure = Some(error);
                    false
                }
            }
        });
        if let Some(error) = failure {
            return Err(error);
        }
        let folder = &self.options.keep;
        match self.disagreement(&script, pieces)? {
            Some(outcome) => {
                let expected = self.options.mode.expected(&script);
                keep(folder, &script, &expected, &outcome)
            }
            None => {
                println!("the difference did not come again; the whole script is kept");
                let outcome = self.program.run(&difference.script, None)?;
                keep(folder, &difference.script, &difference.expected, &outcome)
            }
        }
    }
}

fn is_printed(outcome: &Outcome, expected: &[u8]) -> bool {
    matches!(outcome, Outcome::Printed(printed) if printed == expected)
}

fn keep(folder: &Path, script: &[u8], expected: &[u8], outcome: &Outcome) -> io::Result<()> {
    fs::create_dir_all(folder)?;
    fs::write(folder.join("difference.script"), script)?;
    fs::write(folder.join("difference.expected"), expected)?;
    let printed: &[u8] = match outcome {
        Outcome::Printed(printed) => printed,
        Outcome::Killed(printed) => {
            println!("the program was ended by a signal");
            printed
        }
        Outcome::Endless => {
            println!("the program did not end");
            &[]
        }
    };
    fs::write(folder.join("difference.printed"), printed)?;
    println!("kept in {}:", folder.display());
    print!("{}", String::from_utf8_lossy(script));
    show_first_difference(expected, printed);
    Ok(())
}

fn show_first_difference(expected: &[u8], printed: &[u8]) {
    let mut expected = expected.split_inclusive(|&byte| byte == b'\n');
    let mut printed = printed.split_inclusive(|&byte| byte == b'\n');
    for number in 1.. {
        let (wanted, got) = (expected.next(), printed.next());
        if wanted == got && wanted.is_some() {
            continue;
        }
        let show = |line: Option<&[u8]>| match line {
            Some(line) => format!("{:?}", String::from_utf8_lossy(line)),
            None => "no more".to_string(),
        };
        println!("output line {number}");
        println!("  expected {}", show(wanted));
        println!("  printed  {}", show(got));
        return;
    }
}

fn compare(options: Options) -> io::Result<bool> {
    let mut comparison = Comparison {
        program: Program::new(&options.program),
        options,
        started: Instant::now(),
        runs: 0,
    };
    let (done, difference) = comparison.search()?;
    if let Some(difference) = difference {
        comparison.report(&difference)?;
        return Ok(false);
    }
    println!(
        "{done} scripts, {} runs, no difference, {:.1} seconds",
        comparison.runs,
        comparison.started.elapsed().as_secs_f64()
    );
    Ok(true)
}

fn main() -> ExitCode {
    let arguments: Vec<String> = std::env::args().skip(1).collect();
    let options = match Options::read(&arguments) {
        Some(options) => options,
        None => {
            eprintln!("{USAGE}");
            return ExitCode::from(2);
        }
    };
    match compare(options) {
        Ok(true) => ExitCode::SUCCESS,
        Ok(false) => ExitCode::FAILURE,
        Err(error) => {
            eprintln!("compare: {error}");
            ExitCode::from(2)
        }
    }
}
