//! A pupil's answer sheet, played and marked. Which line is right is what the proved program `desk` says; where a wrong line first differs is looked
//! for here, to show it.
use std::ops::Range;

use crate::bytes::plain;
use crate::explain::{row, Row};
use crate::play::{checked_by_passday, Play, Refused, Step};
use crate::programs::Home;
use crate::script::{lines, LINE_MOST};

/// The desk's word on a line, with the pupil's fields and the server's.
#[derive(Clone, Debug, PartialEq, Eq)]
pub struct Mark {
    pub right: bool,
    pub written: Vec<Vec<u8>>,
    pub answered: Vec<Vec<u8>>,
}

/// The marks of the lines before the first one that the desk refused.
pub type Marks = Vec<Mark>;

/// How many lines are right, and of how many.
pub fn right(marks: &[Mark]) -> String {
    let right = marks.iter().filter(|mark| mark.right).count();
    format!("{right} of {}", marks.len())
}

/// A line's own fields as a script has them, and the pupil's behind them: three where the first is `rx`, else two (docs/DECISIONS.md, D132).
pub fn parted(line: &[u8]) -> (&[u8], Vec<Vec<u8>>) {
    let own = if line.starts_with(b"rx\t") { 3 } else { 2 };
    let mut tabs = line.iter().enumerate().filter(|(_, &byte)| byte == b'\t');
    match tabs.nth(own - 1) {
        Some((end, _)) => (&line[..end], fields(&line[end + 1..])),
        None => (line, Vec::new()),
    }
}

fn fields(line: &[u8]) -> Vec<Vec<u8>> {
    let fields = line.split(|&byte| byte == b'\t');
    fields.map(<[u8]>::to_vec).collect()
}

/// The script of a sheet. A line too long stays whole, so that it can't be read either.
pub fn script(sheet: &[u8]) -> Vec<u8> {
    let mut script = Vec::new();
    for line in lines(sheet) {
        let own = match line.len() > LINE_MOST {
            true => line,
            false => parted(line).0,
        };
        script.extend(own);
        script.push(b'\n');
    }
    script
}

/// Plays a sheet's script, up to the line that the desk refuses, and marks it. What was played must be what `passday` prints and what the desk
/// compares with.
pub fn marked(sheet: &[u8], home: &Home) -> Result<(Play, Marks), Refused> {
    let play = checked_by_passday(&script(sheet), home)?;
    let printed = home.run("desk", sheet)?;
    let said: Vec<Vec<u8>> = lines(&printed).into_iter().map(<[u8]>::to_vec).collect();
    let differs = |line: usize| Refused::Differs("desk", line + 1);
    let mut marks = Marks::new();
    for (step, line) in play.steps.iter().zip(lines(sheet)) {
        let said = said.get(marks.len()).map_or(&[][..], Vec::as_slice);
        if step.command.is_none() {
            break;
        }
        let mark = mark(step, line, said).ok_or_else(|| differs(marks.len()))?;
        marks.push(mark);
    }
    match said[marks.len()..] == last_lines(&play, &marks) {
        true => Ok((play, marks)),
        false => Err(differs(marks.len())),
    }
}

/// The mark of a line, if the desk's line has the fields that were played.
fn mark(step: &Step, line: &[u8], said: &[u8]) -> Option<Mark> {
    let played = step
        .printed
        .iter()
        .flat_map(|line| line.split('\t').skip(1));
    let answered: Vec<Vec<u8>> = played.map(|field| field.as_bytes().to_vec()).collect();
    let said = fields(said);
    let right = match said[0].as_slice() {
        b"right" => true,
        b"wrong" => false,
        _ => return None,
    };
    (said[1..] == answered).then(|| Mark {
        right,
        written: parted(line).1,
        answered,
    })
}

/// What the desk must print behind the lines that it marked.
fn last_lines(play: &Play, marks: &[Mark]) -> Vec<Vec<u8>> {
    let right = marks.iter().filter(|mark| mark.right).count();
    let refused = play
        .is_unreadable()
        .then(|| format!("refused\t37\t{}", play.steps.len()));
    let last = refused.into_iter().chain([format!("marks\t{right}")]);
    last.map(String::into_bytes).collect()
}

// ---- a wrong line in words

/// The first field that differs, from 0, and the first character in it.
fn difference(mark: &Mark) -> (usize, usize) {
    let (written, answered) = (&mark.written, &mark.answered);
    let alike = |(a, b): &(&Vec<u8>, &Vec<u8>)| a == b;
    let place = written.iter().zip(answered).take_while(alike).count();
    let character = match (written.get(place), answered.get(place)) {
        (Some(a), Some(b)) => a.iter().zip(b).take_while(|(a, b)| a == b).count(),
        _ => 0,
    };
    (place, character)
}

/// Where a wrong line first differs from the right one.
pub fn differs(mark: &Mark) -> String {
    let (place, character) = difference(mark);
    let field = place + 1;
    match (mark.written.get(place), mark.answered.get(place)) {
        (None, Some(right)) if right.is_empty() => {
            format!(
                "field {field} of the answer is missing: it is empty, and a tab stands before it"
            )
        }
        (None, _) => format!("field {field} of the answer is missing"),
        (Some(over), None) if over.is_empty() => {
            format!("a tab too many: field {field} of the answer is empty")
        }
        (Some(_), None) => format!("field {field} of the answer is one too many"),
        (Some(_), Some(_)) if character == 0 => format!("field {field} of the answer differs"),
        _ => {
            let from = character + 1;
            format!("field {field} of the answer differs from its character {from} on")
        }
    }
}

/// What is shown of so many: at most so many of them, the one at the place among them.
fn window(length: usize, place: usize, most: usize) -> Range<usize> {
    let begin = match length > most {
        true => place.saturating_sub(most / 4).min(length - most),
        false => 0,
    };
    begin..length.min(begin + most)
}

fn field_words(field: &[u8], character: usize) -> String {
    let shown = window(field.len(), character, 80);
    let before = if shown.start > 0 { ".." } else { "" };
    let behind = if shown.end < field.len() { ".." } else { "" };
    match field.is_empty() {
        true => "(empty)".to_string(),
        false => format!("{before}{}{behind}", plain(&field[shown])),
    }
}

/// The fields of a wrong line, of many or long ones those where it first differs.
fn shown(fields: &[Vec<u8>], (place, character): (usize, usize)) -> Vec<String> {
    let shown = window(fields.len(), place, 12);
    let mut words: Vec<String> = Vec::new();
    if shown.start > 0 {
        words.push("..".to_string());
    }
    for at in shown.clone() {
        let character = if at == place { character } else { 0 };
        words.push(field_words(&fields[at], character));
    }
    if shown.end < fields.len() {
        words.push("..".to_string());
    }
    words
}

/// The pupil's fields and the server's, where they first differ.
pub fn both(mark: &Mark) -> (Vec<String>, Vec<String>) {
    let place = difference(mark);
    (shown(&mark.written, place), shown(&mark.answered, place))
}

fn joined(fields: &[String]) -> String {
    match fields {
        [] => "nothing".to_string(),
        _ => fields.join(" | "),
    }
}

/// The row of a line's mark.
pub fn mark_row(mark: &Mark) -> Row {
    if mark.right {
        return row(None, ' ', "right", "");
    }
    let mut wrong = row(None, ' ', "wrong", differs(mark));
    let (written, answered) = both(mark);
    wrong.details = vec![
        format!("written:  {}", joined(&written)),
        format!("answered: {}", joined(&answered)),
    ];
    wrong
}
