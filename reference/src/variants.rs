//! Scripts made from others: with the link lost after each byte, and with the
//! same bytes cut elsewhere.

use std::collections::BTreeMap;
use std::io;

use crate::generator::{Plan, Story};
use crate::packet::{Packet, Type};
use crate::random::Random;
use crate::script::{Driver, Line, Unwatched, LINE_MOST};
use crate::server::{Answer, Downlink, Server, Uplink, OUTPUT};

/// The lines of a story up to the first that can't be read.
pub fn readable(story: &Story) -> Vec<Line> {
    story
        .lines
        .iter()
        .map_while(|line| Line::parse(line))
        .collect()
}

/// A script of these lines.
pub fn text(lines: &[Line]) -> Vec<u8> {
    lines
        .iter()
        .flat_map(|line| format!("{line}\n").into_bytes())
        .collect()
}

fn run(driver: &mut Driver<Unwatched>, line: &Line) {
    driver
        .run(line, &mut io::sink())
        .expect("nothing is written");
}

/// A driver in the same state.
fn again(driver: &Driver<Unwatched>) -> Driver<Unwatched> {
    let mut copy = Driver::new(Unwatched);
    copy.server = driver.server.clone();
    copy.clock = driver.clock;
    copy
}

/// Hands each script to `each` in which the link of one `rx` line is lost
/// after one of its bytes, made again, and the upload continued. `each` says
/// whether to go on.
pub fn lost(story: &Story, mut each: impl FnMut(&[u8]) -> bool) -> bool {
    let lines = readable(story);
    let mut driver = Driver::new(Unwatched);
    for (place, line) in lines.iter().enumerate() {
        if let Line::Rx(session, bytes) = line {
            for count in 0..=bytes.len() {
                let beginning = Line::Rx(*session, bytes[..count].to_vec());
                let mut variant = lines[..place].to_vec();
                variant.push(beginning.clone());
                variant.push(Line::Drop(*session));
                variant.push(Line::Open(*session));
                let mut lost = again(&driver);
                run(&mut lost, &beginning);
                variant.extend(continuation(&lost.server, *session, &story.plans));
                variant.extend_from_slice(&lines[place + 1..]);
                if !each(&text(&variant)) {
                    return false;
                }
            }
        }
        run(&mut driver, line);
    }
    true
}

/// The lines that continue the session's upload from what the server has of
/// it, or else ask for the last file begun.
fn continuation(server: &Server, session: u32, plans: &BTreeMap<u32, Plan>) -> Vec<Line> {
    let store = &server.store;
    let uplink = session
        .checked_sub(1)
        .and_then(|index| server.sessions.get(index as usize)?.as_ref())
        .map(|session| session.uplink);
    let (number, from, whole) = match uplink {
        Some(Uplink::Receiving { place, .. }) => {
            let file = store.file(place);
            (file.number, file.received as usize, true)
        }
        _ => (store.last_number, 0, false),
    };
    let plan = match plans.get(&number) {
        Some(plan) => plan,
        None => return Vec::new(),
    };
    let information = [number.to_le_bytes(), plan.announced.to_le_bytes()].concat();
    let command = Packet::new(Type::UploadCmd, &information).bytes();
    let mut lines = vec![Line::Rx(session, command)];
    if whole {
        let mut rest = Vec::new();
        for piece in plan.bytes.get(from..).unwrap_or(&[]).chunks(256) {
            rest.extend(Packet::new(Type::Data, piece).bytes());
        }
        rest.extend(Packet::new(Type::DataEnd, &[]).bytes());
        lines.push(Line::Rx(session, rest));
    }
    lines
}

/// An `rx` line with the places where it may be cut: where nothing is due, so
/// that the requests after the line would change nothing there.
struct Cuttable {
    session: u32,
    bytes: Vec<u8>,
    /// Rising, all within the bytes that the link takes.
    places: Vec<usize>,
    /// Whether the next line of the session may be joined to this one.
    joins: bool,
}

enum Form {
    Fixed(Line),
    Cuttable(Cuttable),
}

fn nothing_is_due(server: &Server, index: usize) -> bool {
    match &server.sessions[index] {
        Some(session) => matches!(session.downlink, Downlink::Idle | Downlink::Ended { .. }),
        None => false,
    }
}

/// Finds the places by handing over byte after byte on a copy of the server.
fn cuttable(driver: &Driver<Unwatched>, session: u32, bytes: &[u8]) -> Option<Cuttable> {
    let index = (session as usize).checked_sub(1)?;
    driver.server.sessions.get(index)?.as_ref()?;
    let mut server = driver.server.clone();
    let mut room = [0; OUTPUT];
    let mut places = Vec::new();
    for (at, byte) in bytes.iter().enumerate() {
        if at > 0 && nothing_is_due(&server, index) {
            places.push(at);
        }
        let answer = server.receive(session, driver.clock, &[*byte], &mut room);
        if matches!(answer, Answer::Closed(_)) {
            break;
        }
    }
    Some(Cuttable {
        session,
        bytes: bytes.to_vec(),
        places,
        joins: nothing_is_due(&server, index),
    })
}

/// A script whose `rx` lines can be cut or joined with no other output.
pub struct Cutting {
    forms: Vec<Form>,
}

impl Cutting {
    pub fn new(lines: &[Line]) -> Cutting {
        let mut driver = Driver::new(Unwatched);
        let mut forms = Vec::new();
        for line in lines {
            let form = match line {
                Line::Rx(session, bytes) => match cuttable(&driver, *session, bytes) {
                    Some(cuttable) => Form::Cuttable(cuttable),
                    None => Form::Fixed(line.clone()),
                },
                _ => Form::Fixed(line.clone()),
            };
            run(&mut driver, line);
            forms.push(form);
        }
        Cutting { forms }
    }

    /// Lines of one session that follow each other, as one line.
    pub fn joined(&self) -> Vec<Line> {
        let mut lines = Vec::new();
        let mut may_join = false;
        for form in &self.forms {
            let next = match form {
                Form::Cuttable(next) => next,
                Form::Fixed(line) => {
                    lines.push(line.clone());
                    may_join = false;
                    continue;
                }
            };
            match lines.last_mut() {
                Some(Line::Rx(session, bytes))
                    if may_join
                        && *session == next.session
                        && 2 * (bytes.len() + next.bytes.len()) + 16 <= LINE_MOST =>
                {
                    bytes.extend(&next.bytes);
                }
                _ => lines.push(Line::Rx(next.session, next.bytes.clone())),
            }
            may_join = next.joins;
        }
        lines
    }

    /// Every line cut wherever it can be.
    pub fn in_bytes(&self) -> Vec<Line> {
        self.cut(|places| places.to_vec())
    }

    /// Lines cut in random places, with empty pieces too.
    pub fn in_pieces(&self, random: &mut Random) -> Vec<Line> {
        let part = random.between(1, 8);
        self.cut(|places| {
            let mut chosen = Vec::new();
            for place in places {
                if random.chance(part, 8) {
                    chosen.push(*place);
                    if random.chance(1, 8) {
                        chosen.push(*place);
                    }
                }
            }
            chosen
        })
    }

    fn cut(&self, mut choose: impl FnMut(&[usize]) -> Vec<usize>) -> Vec<Line> {
        let mut lines = Vec::new();
        for form in &self.forms {
            match form {
                Form::Fixed(line) => lines.push(line.clone()),
                Form::Cuttable(line) => {
                    let mut from = 0;
                    let ends = choose(&line.places);
                    for end in ends.into_iter().chain([line.bytes.len()]) {
                        let piece = line.bytes[from..end].to_vec();
                        lines.push(Line::Rx(line.session, piece));
                        from = end;
                    }
                }
            }
        }
        lines
    }
}
