//! A lesson in words becomes a script.
use std::collections::HashMap;
use std::io;
use std::path::Path;

use crate::bytes::{numbered, packet, to_hex};
use crate::draft::Draft;
use crate::lesson::{fault, hex, Fault, Words, Wrong, LINE_MOST};
use crate::programs::Home;
use crate::upload::{self, Around, Upload};

/// What a line of a lesson asks for.
enum Act {
    /// A line of the script as it stands.
    Plain(String),
    /// The session's link begins or is lost; a cut that waits has no packet then.
    Link(&'static str, u32),
    /// The link of the session is lost after so many bytes of its next packet.
    Cut(u32, usize),
    /// Packets, a line each, and where the link is lost in them.
    Send(u32, Upload),
    /// An equation that the proved program turns into bytes, with its column.
    Select(u32, Vec<u8>, usize),
}

/// The script of a lesson, or all that is wrong in it. Bodies are read from files in the folder.
pub fn say(lesson: &[u8], folder: &Path, home: &Home) -> io::Result<Result<String, Vec<Wrong>>> {
    let mut wrong = Vec::new();
    let mut acts = Vec::new();
    let mut files = HashMap::new();
    for (line, number) in lines(lesson).into_iter().zip(1..) {
        match read_line(line, &mut files, folder) {
            Ok(Some(act)) => acts.push((number, act)),
            Ok(None) => {}
            Err(Fault { column, reason }) => wrong.push(Wrong {
                line: number,
                column,
                reason,
            }),
        }
    }
    translate_selects(&mut acts, &mut wrong, home)?;
    let script = write_script(&acts, &mut wrong);
    wrong.sort();
    Ok(match wrong.is_empty() {
        true => Ok(script),
        false => Err(wrong),
    })
}

/// The lines without newlines, and without what Windows adds.
fn lines(lesson: &[u8]) -> Vec<&[u8]> {
    let lesson = lesson.strip_prefix(b"\xef\xbb\xbf").unwrap_or(lesson);
    let lines = lesson.split(|&byte| byte == b'\n');
    lines
        .map(|line| line.strip_suffix(b"\r").unwrap_or(line))
        .collect()
}

fn read_line(
    line: &[u8],
    files: &mut HashMap<String, Draft>,
    folder: &Path,
) -> Result<Option<Act>, Fault> {
    if line.len() > LINE_MOST {
        return fault(
            LINE_MOST + 1,
            format!("the line is too long: at most {LINE_MOST} bytes"),
        );
    }
    let mut words = Words::new(line);
    let (_, whole) = words.rest();
    if whole.is_empty() || whole.starts_with(b"#") {
        return Ok(None);
    }
    let first = words.word("a word or the number of a session")?;
    let act = match first.as_str() {
        "clock" => Act::Plain(format!("time\t{}", words.number("a clock")?)),
        "login" => Act::Link("open", words.number("the number of a session")?),
        "lose" => Act::Link("drop", words.number("the number of a session")?),
        "file" => {
            define(&mut words, files, folder)?;
            return Ok(None);
        }
        _ if first.starts_with(|letter: char| letter.is_ascii_digit()) => {
            let session = crate::lesson::decimal(&first, words.column, "the number of a session")?;
            let around = Around { files, folder };
            session_line(session, &mut words, &around)?
        }
        _ => {
            return fault(
                words.column,
                format!(
                "'{first}' begins no line: clock, login, lose, file or the number of a session do"
            ),
            )
        }
    };
    words.end()?;
    Ok(Some(act))
}

/// `file NAME ..`: a file that later lines name.
fn define(
    words: &mut Words,
    files: &mut HashMap<String, Draft>,
    folder: &Path,
) -> Result<(), Fault> {
    let name = words.word("a name for the file")?;
    if files.contains_key(&name) {
        return fault(words.column, format!("there is a file '{name}' already"));
    }
    let draft = upload::read_file(words, &Around { files, folder })?;
    files.insert(name, draft);
    Ok(())
}

fn one(session: u32, bytes: Vec<u8>) -> Act {
    let packets = vec![bytes];
    Act::Send(session, Upload { packets, cut: None })
}

/// What a session does.
fn session_line(session: u32, words: &mut Words, around: &Around) -> Result<Act, Fault> {
    let word = words.word("what the session does")?;
    let column = words.column;
    Ok(match word.as_str() {
        "upload" | "continue" => {
            let continued = word == "continue";
            let number = if continued {
                words.number("the number of the file to continue")?
            } else {
                0
            };
            let (draft, manner) = upload::read(words, around, continued)?;
            let placed = |fault: Fault| Fault {
                column: fault.column.max(column),
                ..fault
            };
            Act::Send(
                session,
                upload::packets(number, &draft, &manner).map_err(placed)?,
            )
        }
        "select" => return select(session, words),
        "download" => one(session, download(words)?),
        "directory" => one(session, directory(words)?),
        "ack" => one(session, ack(words)?),
        "nak" => one(session, packet(13, &[])),
        "data" => one(session, data(words)?),
        "end" => one(session, packet(1, &[])),
        "raw" => one(session, raw(words)?),
        "cut" => Act::Cut(session, words.number("a number of bytes")? as usize),
        _ => {
            let list =
                "upload, continue, select, download, directory, ack, nak, data, end, raw or cut";
            return fault(
                column,
                format!("'{word}' is nothing that a session does: {list}"),
            );
        }
    })
}

fn select(session: u32, words: &mut Words) -> Result<Act, Fault> {
    let mut ahead = words.clone();
    if ahead
        .word("an equation")
        .map_or(false, |word| word == "bytes")
    {
        *words = ahead;
        let equation = if words.is_empty() {
            Vec::new()
        } else {
            upload::bytes(words)?
        };
        if equation.len() > 256 {
            return fault(words.column, "the equation has more than 256 bytes");
        }
        return Ok(one(session, packet(16, &equation)));
    }
    let (column, equation) = words.rest();
    *words = Words::new(b"");
    Ok(Act::Select(session, equation.to_vec(), column))
}

/// The number of a file, or `next` for the next selected one.
fn which(words: &mut Words) -> Result<u32, Fault> {
    let wanted = "'next' or the number of a file";
    let word = words.word(wanted)?;
    match word.as_str() {
        "next" => Ok(0),
        _ => crate::lesson::decimal(&word, words.column, wanted),
    }
}

/// `download 3 from 40 lock 1`; with `nak` or `ack` behind it that packet stands in the same line of the script.
fn download(words: &mut Words) -> Result<Vec<u8>, Fault> {
    let number = which(words)?;
    let (mut from, mut lock) = (0, 0);
    let mut behind = Vec::new();
    while !words.is_empty() {
        match words.word("from, lock, nak or ack")?.as_str() {
            "from" => from = words.number("an offset")?,
            "lock" => lock = byte(words, "the number of a destination")?,
            "nak" => behind = packet(13, &[]),
            "ack" => behind = ack(words)?,
            other => {
                return fault(
                    words.column,
                    format!("'{other}' where from, lock, nak or ack belongs"),
                )
            }
        }
        if !behind.is_empty() {
            break;
        }
    }
    let mut information = numbered(number, 4);
    information.extend(numbered(from, 4));
    information.push(lock);
    let mut bytes = packet(8, &information);
    bytes.extend(behind);
    Ok(bytes)
}

fn byte(words: &mut Words, wanted: &str) -> Result<u8, Fault> {
    match words.number(wanted)? {
        number @ 0..=255 => Ok(number as u8),
        _ => fault(words.column, "the number is one byte: at most 255"),
    }
}

/// `directory next short`; with `nak` or `ack` behind it that packet stands in the same line of the script.
fn directory(words: &mut Words) -> Result<Vec<u8>, Fault> {
    let number = which(words)?;
    let kind = match words.word("short or long")?.as_str() {
        "short" => 14,
        "long" => 15,
        other => {
            return fault(
                words.column,
                format!("'{other}' where short or long belongs"),
            )
        }
    };
    let mut bytes = packet(kind, &numbered(number, 4));
    if !words.is_empty() {
        bytes.extend(match words.word("nak or ack")?.as_str() {
            "nak" => packet(13, &[]),
            "ack" => ack(words)?,
            other => return fault(words.column, format!("'{other}' where nak or ack belongs")),
        });
    }
    Ok(bytes)
}

fn ack(words: &mut Words) -> Result<Vec<u8>, Fault> {
    let destination = if words.is_empty() {
        0
    } else {
        byte(words, "the number of a destination")?
    };
    Ok(packet(12, &[destination]))
}

fn data(words: &mut Words) -> Result<Vec<u8>, Fault> {
    use crate::lesson::Token;
    let information = match words.token()? {
        Some(Token::Text(text)) => text,
        Some(Token::Word(word)) if word == "bytes" => upload::bytes(words)?,
        _ => {
            return fault(
                words.column,
                "behind 'data' stands text in quotes, or 'bytes' and hex digits",
            )
        }
    };
    if information.len() > 256 {
        return fault(words.column, "a DATA packet has at most 256 bytes");
    }
    Ok(packet(0, &information))
}

fn raw(words: &mut Words) -> Result<Vec<u8>, Fault> {
    let (column, digits) = words.rest();
    let bytes = hex(digits, column)?;
    *words = Words::new(b"");
    Ok(bytes)
}

// ---- equations

/// The equations of all lines become packets, in one run of the proved program.
fn translate_selects(
    acts: &mut [(usize, Act)],
    wrong: &mut Vec<Wrong>,
    home: &Home,
) -> io::Result<()> {
    let asked = acts.iter().filter_map(|(_, act)| match act {
        Act::Select(_, equation, _) => Some([b"text\t", equation.as_slice()].concat()),
        _ => None,
    });
    let asked: Vec<Vec<u8>> = asked.collect();
    let mut answers = home.equations(&asked)?.into_iter();
    for (line, act) in acts {
        if let Act::Select(session, _, column) = act {
            let (session, column) = (*session, *column);
            let answer = answers.next().unwrap_or_default();
            match equation_bytes(&answer, column) {
                Ok(equation) => *act = one(session, packet(16, &equation)),
                Err(Fault { column, reason }) => wrong.push(Wrong {
                    line: *line,
                    column,
                    reason,
                }),
            }
        }
    }
    Ok(())
}

fn equation_bytes(answer: &str, column: usize) -> Result<Vec<u8>, Fault> {
    let fields: Vec<&str> = answer.split('\t').collect();
    match fields[..] {
        ["bytes", digits] => hex(digits.as_bytes(), 1),
        ["wrong", place, reason] => {
            let place: usize = place.parse().unwrap_or(1);
            fault(
                column + place - 1,
                format!(
                    "the equation: {} (docs/EQUATIONS.md: {reason})",
                    equation_reason(reason)
                ),
            )
        }
        _ => fault(column, "the equation has more than 256 bytes"),
    }
}

/// The reasons of the program `equations`, in the words of docs/EQUATIONS.md.
pub fn equation_reason(reason: &str) -> &str {
    match reason {
        "item" => "a name or ( is wanted here, or no name goes on so",
        "deeper" => "this would be the 17th bracket open at once",
        "operator" => "an operator is wanted, or one is not whole",
        "order" => "text knows no order, only == and !=",
        "constant" => "a number or a string is wanted",
        "large" => "the number is above 4,294,967,295",
        "width" => "behind : stands no 1, 2 or 4, or one too small",
        "string" => "the string does not end, or a byte or escape may not stand in it",
        "stars" => "this is the fifth star",
        "connective" => "&&, ||, ) or the end is wanted",
        "bracket" => "the equation ends with a bracket open",
        "long" => "a string has at most 255 bytes",
        other => other,
    }
}

// ---- the script

/// The lines of the script, with the cuts that wait for a session's next packet: the line of the lesson, and the number of bytes.
struct Script {
    text: String,
    waiting: HashMap<u32, (usize, usize)>,
}

impl Script {
    fn line(&mut self, line: &str) {
        self.text.push_str(line);
        self.text.push('\n');
    }

    fn rx(&mut self, session: u32, bytes: &[u8]) {
        self.line(&format!("rx\t{session}\t{}", to_hex(bytes)));
    }

    /// The first bytes of a packet, and the link is lost.
    fn cut(&mut self, session: u32, bytes: &[u8]) {
        if !bytes.is_empty() {
            self.rx(session, bytes);
        }
        self.line(&format!("drop\t{session}"));
    }

    fn send(&mut self, session: u32, upload: &Upload, wrong: &mut Vec<Wrong>) {
        let mut cut = upload.cut;
        if let Some((line, bytes)) = self.waiting.remove(&session) {
            let length = upload.packets[0].len();
            if bytes > length {
                let reason =
                    format!("the next packet of session {session} has only {length} bytes");
                wrong.push(Wrong {
                    line,
                    column: 1,
                    reason,
                });
                return;
            }
            cut = Some((0, bytes));
        }
        for (index, packet) in upload.packets.iter().enumerate() {
            match cut {
                Some((at, bytes)) if at == index => return self.cut(session, &packet[..bytes]),
                _ => self.rx(session, packet),
            }
        }
    }

    /// A cut that no packet of its session follows.
    fn unused(&mut self, session: u32, wrong: &mut Vec<Wrong>) {
        if let Some((line, _)) = self.waiting.remove(&session) {
            let reason = format!("no packet of session {session} follows that could be cut");
            wrong.push(Wrong {
                line,
                column: 1,
                reason,
            });
        }
    }
}

fn write_script(acts: &[(usize, Act)], wrong: &mut Vec<Wrong>) -> String {
    let mut script = Script {
        text: String::new(),
        waiting: HashMap::new(),
    };
    for (number, act) in acts {
        match act {
            Act::Plain(line) => script.line(line),
            Act::Link(word, session) => {
                script.unused(*session, wrong);
                script.line(&format!("{word}\t{session}"));
            }
            Act::Cut(session, bytes) => {
                script.unused(*session, wrong);
                script.waiting.insert(*session, (*number, *bytes));
            }
            Act::Send(session, upload) => script.send(*session, upload, wrong),
            // an equation that is wrong, which is told already; it counts as a packet
            Act::Select(session, ..) => drop(script.waiting.remove(session)),
        }
    }
    let mut left: Vec<u32> = script.waiting.keys().copied().collect();
    left.sort_unstable();
    for session in left {
        script.unused(session, wrong);
    }
    script.text
}
