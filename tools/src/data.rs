//! What the drawn page shows, as JSON: the rows of each step, and what the step changed in the state. Also the whole state after each step as text, for
//! the test that compares it with what the page shows.
use crate::bytes::{quoted, to_hex};
use crate::explain::{Pass, Row, Teller};
use crate::play::Play;
use crate::sheet::{self, Mark};
use crate::state::{Downlink, File, Session, State, Uplink};
use crate::words;

/// A JSON string. All that could end the page's script, or be read as a tag, is escaped.
pub fn string(text: &str) -> String {
    let mut out = String::with_capacity(text.len() + 2);
    out.push('"');
    for letter in text.chars() {
        match letter {
            '"' | '\\' => {
                out.push('\\');
                out.push(letter);
            }
            '<' | '>' | '&' | '\'' | '\u{7f}'..=char::MAX | '\0'..='\u{1f}' => {
                let mut units = [0; 2];
                for unit in letter.encode_utf16(&mut units) {
                    out.push_str(&format!("\\u{unit:04x}"));
                }
            }
            _ => out.push(letter),
        }
    }
    out.push('"');
    out
}

fn list(parts: impl IntoIterator<Item = String>) -> String {
    let parts: Vec<String> = parts.into_iter().collect();
    format!("[{}]", parts.join(","))
}

// ---- the state in words

pub fn uplink(session: &Session) -> String {
    match session.up {
        Uplink::Idle => "idle".to_string(),
        Uplink::Receiving { file, received } => format!("receiving file {file}, has {received}"),
        Uplink::Ignoring => "ignoring DATA".to_string(),
    }
}

pub fn downlink(session: &Session) -> String {
    match &session.down {
        Downlink::Idle => "idle".to_string(),
        Downlink::Sending { file } => format!("sending file {file}"),
        Downlink::Ended { file } => format!("file {file} sent"),
        Downlink::Aborting { file } => format!("breaking off file {file}"),
        Downlink::Listing {
            long,
            files,
            behind,
            bytes,
        } => {
            let form = if *long { "long" } else { "short" };
            let listed = words::files(files);
            format!("listing {listed}, {form}: {behind} sent, {bytes} bytes of the next")
        }
        Downlink::Other => "busy".to_string(),
    }
}

fn unfinished(session: &Session) -> String {
    match session.held.is_empty() {
        true => "none".to_string(),
        false => {
            let told = words::part(&session.held);
            format!("{}, {}", told.name, told.words)
        }
    }
}

fn title(file: &File) -> String {
    file.title
        .as_ref()
        .map_or(String::new(), |title| quoted(title))
}

// ---- JSON

fn session_json(session: &Session) -> String {
    let selection = list(session.selection.iter().map(u32::to_string));
    let words = [uplink(session), downlink(session), unfinished(session)];
    let [up, down, held] = words.map(|words| string(&words));
    format!(
        "[{},{up},{down},{held},{selection},{}]",
        u8::from(session.linked),
        session.taken
    )
}

fn file_json(file: &Option<File>) -> String {
    match file {
        None => "0".to_string(),
        Some(file) => {
            let File {
                number,
                length,
                received,
                time,
                ..
            } = file;
            format!(
                "[{number},{},{received},{length},{time}]",
                string(&title(file))
            )
        }
    }
}

/// Which elements differ, each with its place.
fn changed<T: PartialEq>(before: &[T], after: &[T], json: impl Fn(&T) -> String) -> String {
    let pairs = after
        .iter()
        .enumerate()
        .filter(|(place, now)| before.get(*place) != Some(*now));
    list(pairs.map(|(place, now)| format!("[{place},{}]", json(now))))
}

fn delta(before: &State, after: &State) -> String {
    let sessions = changed(&before.sessions, &after.sessions, session_json);
    let files = changed(&before.files, &after.files, file_json);
    let blocks = changed(&before.blocks, &after.blocks, u32::to_string);
    format!("[{sessions},{files},{blocks}]")
}

fn row_json(row: &Row) -> String {
    let way = row.way.to_string();
    let hex = to_hex(&row.bytes);
    let texts = [&way, &row.name, &row.words, &hex].map(|text| string(text));
    let details = list(row.details.iter().map(|detail| string(detail)));
    format!(
        "[{},{},{details}]",
        row.session.unwrap_or(0),
        texts.join(",")
    )
}

/// The mark of a line: nothing behind it where it is right, else where it first differs, the pupil's fields and the server's.
fn mark_json(mark: &Mark) -> String {
    if mark.right {
        return "[]".to_string();
    }
    let (written, answered) = sheet::both(mark);
    let [written, answered] =
        [written, answered].map(|words| list(words.iter().map(|word| string(word))));
    format!("[{},{written},{answered}]", string(&sheet::differs(mark)))
}

/// All of a play: its name, what is said first, the marks, and for each step line, clock, rows, changes and mark.
pub fn json(pass: &Pass, name: &str, note: &str) -> String {
    let mut teller = Teller::new(pass);
    let play = &pass.play;
    let marks = pass.marks.as_deref();
    let empty = State::default();
    let mut steps = vec![format!("[0,0,[],{}]", delta(&empty, &play.before))];
    let mut before = &play.before;
    for (at, step) in play.steps.iter().enumerate() {
        let rows = list(teller.rows(step).iter().map(row_json));
        let mark = marks.and_then(|marks| marks.get(at));
        let mark = mark.map_or(String::new(), |mark| format!(",{}", mark_json(mark)));
        let (line, clock) = (step.line, step.clock);
        let changes = delta(before, &step.after);
        steps.push(format!("[{line},{clock},{rows},{changes}{mark}]"));
        before = &step.after;
    }
    let marks = marks.map_or("null".to_string(), |marks| string(&sheet::right(marks)));
    format!(
        "{{\"name\":{},\"note\":{},\"marks\":{marks},\"steps\":[\n{}]}}",
        string(name),
        string(note),
        steps.join(",\n")
    )
}

// ---- the same as text

fn state_text(state: &State) -> String {
    let mut parts = Vec::new();
    for (session, number) in state.sessions.iter().zip(1..) {
        let link = if session.linked { "open" } else { "closed" };
        parts.push(format!(
            "session {number}|{link}|{}|{}|{}|{:?}|{}",
            uplink(session),
            downlink(session),
            unfinished(session),
            session.selection,
            session.taken
        ));
    }
    let mut files: Vec<&File> = state.files.iter().flatten().collect();
    files.sort_by_key(|file| file.number);
    for file in files {
        parts.push(format!(
            "file {}|{}|{}|{}|{}",
            file.number,
            title(file),
            file.received,
            file.length,
            file.time
        ));
    }
    let owners: Vec<String> = state.blocks.iter().map(u32::to_string).collect();
    parts.push(format!("blocks {}", owners.join(" ")));
    parts.join("\t")
}

/// The state before the first line and after each line, a line each.
pub fn states(play: &Play) -> String {
    let states = std::iter::once(&play.before).chain(play.steps.iter().map(|step| &step.after));
    states.map(|state| state_text(state) + "\n").collect()
}
