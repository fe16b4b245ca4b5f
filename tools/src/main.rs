//! tools --home CHECKOUT say LESSON | explain [--maxsel N] SCRIPT | draw [--maxsel N] SCRIPT | explain --sheet SHEET | draw --sheet SHEET; - is
//! standard input. ./run calls it.
//! One word more is for the tests: states [--maxsel N] SCRIPT prints the server's state after each line.
use std::env;
use std::fs;
use std::io::{self, Read, Write};
use std::path::Path;
use std::process::ExitCode;

use tools::data;
use tools::explain::{explain, Pass};
use tools::page;
use tools::play::{checked, Refused};
use tools::programs::Home;
use tools::say::say;
use tools::sheet;
use tools::words;

/// Why nothing is printed: what is told, and the exit status.
struct Ended(String, u8);

fn ended<T>(status: u8, told: impl Into<String>) -> Result<T, Ended> {
    Err(Ended(told.into(), status))
}

fn failed(error: io::Error) -> Ended {
    Ended(format!("run: {error}"), 2)
}

fn read(name: &str) -> Result<Vec<u8>, Ended> {
    let mut bytes = Vec::new();
    let read = match name {
        "-" => io::stdin().lock().read_to_end(&mut bytes).map(|_| bytes),
        _ => fs::read(name),
    };
    read.map_err(|error| Ended(format!("run: '{name}' can't be read: {}", error.kind()), 2))
}

fn say_lesson(name: &str, home: &Home) -> Result<String, Ended> {
    let lesson = read(name)?;
    let folder = Path::new(name).parent().unwrap_or_else(|| Path::new(""));
    match say(&lesson, folder, home).map_err(failed)? {
        Ok(script) => Ok(script),
        Err(wrong) => {
            let lines = wrong.iter().map(|wrong| {
                format!(
                    "line {}, column {}: {}",
                    wrong.line, wrong.column, wrong.reason
                )
            });
            ended(1, lines.collect::<Vec<String>>().join("\n"))
        }
    }
}

fn refused(refused: Refused) -> Ended {
    match refused {
        Refused::Failed(error) => failed(error),
        Refused::Size(_) => Ended("run: MAXSEL is 1 to 50.".to_string(), 2),
        Refused::Asks(line) => {
            let told = format!("run: line {line} asks why, and classday, which answers it, has MAXSEL 50: leave out --maxsel.");
            Ended(told, 2)
        }
        Refused::Differs(program, line) => {
            let told = format!("run: line {line} of what was played is not what {program} prints, so nothing is told.");
            Ended(told, 3)
        }
    }
}

/// What is behind a word that shows: a script and its MAXSEL, or an answer sheet.
enum Shown {
    Script(Option<usize>),
    Sheet,
}

/// A script or a sheet, played; and why it can't be read to its end.
fn played(name: &str, shown: &Shown, home: &Home) -> Result<(Pass, Option<String>), Ended> {
    let bytes = read(name)?;
    let (play, maxsel, marks) = match shown {
        Shown::Script(maxsel) => {
            let play = checked(&bytes, *maxsel, home).map_err(refused)?;
            (play, *maxsel, None)
        }
        Shown::Sheet => {
            let (play, marks) = sheet::marked(&bytes, home).map_err(refused)?;
            (play, None, Some(marks))
        }
    };
    let reason = play.is_unreadable().then(|| match marks {
        None => home.reason(&bytes, true),
        Some(_) => {
            let reason = home.reason(&sheet::script(&bytes), false);
            format!(
                "{reason}; the desk refuses the line (37), and the marks are for those before it"
            )
        }
    });
    let texts = words::texts(&play, home).map_err(failed)?;
    let pass = Pass {
        play,
        texts,
        maxsel,
        marks,
    };
    Ok((pass, reason))
}

/// What is printed, and the exit status: 1 for a script or a sheet with a line that can't be read, whose reason is told.
fn show(word: &str, name: &str, shown: &Shown, home: &Home) -> Result<(String, u8), Ended> {
    let (pass, reason) = played(name, shown, home)?;
    let told = reason.as_deref().unwrap_or_default();
    let text = match word {
        "explain" => explain(&pass),
        "states" => data::states(&pass.play),
        _ => page::page(&pass, name, told),
    };
    if reason.is_some() {
        eprintln!("{told}");
    }
    Ok((text, reason.is_some().into()))
}

/// Takes the options that stand before the name.
fn options(words: &mut Vec<String>) -> Result<Shown, Ended> {
    let (mut maxsel, mut is_sheet) = (None, false);
    loop {
        match words.first().map(String::as_str) {
            Some("--sheet") => {
                is_sheet = true;
                words.remove(0);
            }
            Some("--maxsel") => {
                match words.get(1).and_then(|number| number.parse().ok()) {
                    Some(number @ 1..=50) => maxsel = Some(number),
                    _ => return ended(2, "run: MAXSEL is 1 to 50: --maxsel 2"),
                }
                words.drain(..2);
            }
            _ => break,
        }
    }
    match (is_sheet, maxsel) {
        (true, Some(_)) => ended(
            2,
            "run: --maxsel is for a script: the desk marks a sheet by a server whose MAXSEL is 50.",
        ),
        (true, None) => Ok(Shown::Sheet),
        (false, maxsel) => Ok(Shown::Script(maxsel)),
    }
}

fn run(mut words: Vec<String>) -> Result<(String, u8), Ended> {
    let usage = "use: tools --home CHECKOUT say|explain|draw [--maxsel N | --sheet] NAME";
    if words.len() < 3 || words[0] != "--home" {
        return ended(2, usage);
    }
    let home = Home::new(&words[1]);
    let word = words[2].clone();
    words.drain(..3);
    if let ("say", [name]) = (word.as_str(), &words[..]) {
        return Ok((say_lesson(name, &home)?, 0));
    }
    let shown = options(&mut words)?;
    match (word.as_str(), &words[..]) {
        ("explain" | "draw" | "states", [name]) => show(&word, name, &shown, &home),
        _ => ended(2, usage),
    }
}

fn main() -> ExitCode {
    let (text, status) = match run(env::args().skip(1).collect()) {
        Ok(printed) => printed,
        Err(Ended(told, status)) => {
            eprintln!("{told}");
            return ExitCode::from(status);
        }
    };
    let mut output = io::stdout().lock();
    match output
        .write_all(text.as_bytes())
        .and_then(|()| output.flush())
    {
        Ok(()) => ExitCode::from(status),
        Err(error) => {
            // a reader who wanted no more is told nothing
            if error.kind() != io::ErrorKind::BrokenPipe {
                eprintln!("run: the output could not be written whole.");
            }
            ExitCode::from(3)
        }
    }
}
