//! What is read from the library's memory is what its answers say, on random scripts: where the words stand is no promise of the library.
use reference::generator;
use tools::bytes::number;
use tools::header;
use tools::names::TITLE;
use tools::play::{play, Begun, Event, Step, Upload, SIZES};
use tools::script::Command;
use tools::state::{Downlink, File, Session, State, Uplink};

/// How often each kind of answer was compared.
#[derive(Default)]
struct Seen {
    begun: usize,
    accepted: usize,
    refused: usize,
    selected: usize,
    sent: usize,
    listed: usize,
    moved: usize,
    ended: usize,
    parts: usize,
    gone: usize,
}

fn session_of(step: &Step) -> Option<usize> {
    match step.command.as_ref()? {
        Command::Time(_) | Command::Why(..) => None,
        Command::Open(session) | Command::Drop(session) | Command::Rx(session, _) => {
            Some(*session as usize)
        }
    }
}

/// The station's last packet and its upload, before the last answer of the step.
fn last_heard(step: &Step) -> Option<(&[u8], Option<&Upload>)> {
    step.events.iter().rev().find_map(|event| match event {
        Event::Heard { packet, upload, .. } => Some((packet.as_slice(), upload.as_ref())),
        _ => None,
    })
}

fn kind(packet: &[u8]) -> u8 {
    packet[1] & 31
}

fn file_of(step: &Step, number: u32) -> Option<&File> {
    let mut files = step.after.files.iter().flatten();
    files.find(|file| file.number == number)
}

/// What the last answer of a step says of its session's upload.
fn uploaded(step: &Step, packet: &[u8], session: &Session, seen: &mut Seen) {
    let heard = last_heard(step);
    match (kind(packet), heard.and_then(|(_, upload)| upload)) {
        (4, _) => {
            let (file, received) = (number(&packet[2..]), number(&packet[6..]));
            assert_eq!(session.up, Uplink::Receiving { file, received });
            let record = file_of(step, file).map(|file| (file.received, file.time));
            assert_eq!(record, Some((received, 0)));
            seen.begun += 1;
        }
        (6, Some(upload)) => {
            let file = file_of(step, upload.file).expect("an accepted file is there");
            assert_eq!(
                (session.up, file.received),
                (Uplink::Idle, upload.announced)
            );
            assert_eq!(file.title, header::first(&upload.bytes, TITLE));
            assert!(file.time > 0);
            seen.accepted += 1;
        }
        (7, Some(upload)) => {
            let is_data = heard.map_or(false, |(packet, _)| kind(packet) == 0);
            let up = if is_data {
                Uplink::Ignoring
            } else {
                Uplink::Idle
            };
            assert_eq!((session.up, file_of(step, upload.file)), (up, None));
            seen.refused += 1;
        }
        other => panic!("no upload: {other:?}"),
    }
}

/// The last packet of the step that began a download or a directory, and what the server sent behind it as DATA.
fn last_begun(step: &Step) -> Option<(&[u8], &Begun, Vec<u8>)> {
    let begun = |event: &Event| matches!(event, Event::Heard { begun: Some(_), .. });
    let at = step.events.iter().rposition(begun)?;
    let mut sent = Vec::new();
    for event in &step.events[at..] {
        match event {
            Event::Sent(packet) if kind(packet) == 0 => sent.extend(&packet[2..]),
            _ => {}
        }
    }
    match &step.events[at] {
        Event::Heard {
            packet,
            begun: Some(begun),
            ..
        } => Some((packet, begun, sent)),
        _ => None,
    }
}

/// A directory that has ended leaves the downlink idle, and its entries are those of the files that it began with, in their order; one of number 0 has
/// moved the place in the selection behind them.
fn listed(command: &[u8], files: &[u32], mut sent: &[u8], session: &Session, seen: &mut Seen) {
    assert_eq!(session.down, Downlink::Idle);
    let mut entries = Vec::new();
    while let (items, header::End::Whole(length)) = header::read(sent) {
        entries.push(number(items[0].data));
        sent = &sent[length..];
    }
    // one that was broken off has fewer
    assert!(files.starts_with(&entries), "{files:?} {entries:?}");
    seen.listed += 1;
    if number(&command[2..]) == 0 {
        let before = session.taken - files.len();
        assert_eq!(session.selection[before..session.taken], *files);
        seen.moved += 1;
    } else {
        assert_eq!(files, [number(&command[2..])]);
    }
}

/// What the last answer of a step says of its session.
fn answered(step: &Step, packet: &[u8], session: &Session, seen: &mut Seen) {
    match kind(packet) {
        1 => match last_begun(step) {
            Some((command, Begun::Directory(files), sent)) => {
                listed(command, files, &sent, session, seen)
            }
            _ => {
                assert!(matches!(session.down, Downlink::Ended { .. }));
                seen.sent += 1;
            }
        },
        2 => assert_eq!(
            (session.linked, session.up, session.selection.len()),
            (true, Uplink::Idle, 0)
        ),
        4 | 6 | 7 => uploaded(step, packet, session, seen),
        10 | 11 => {
            assert_eq!(session.down, Downlink::Idle);
            seen.ended += 1;
        }
        17 => {
            assert_eq!(
                (session.selection.len(), session.taken),
                (number(&packet[2..]) as usize, 0)
            );
            for &number in &session.selection {
                assert!(file_of(step, number).map_or(false, |file| file.time > 0));
            }
            seen.selected += 1;
        }
        _ => {}
    }
}

fn compare(step: &Step, seen: &mut Seen) {
    let session = match session_of(step) {
        Some(session @ 1..=4) => &step.after.sessions[session - 1],
        _ => return,
    };
    match step.events.last() {
        Some(Event::Sent(packet)) => answered(step, packet, session, seen),
        Some(Event::Part { packet, .. }) => {
            assert_eq!(&session.held, packet);
            seen.parts += 1;
        }
        Some(Event::Closed | Event::Forgot(_)) => {
            assert_eq!(
                (session.linked, session.held.len(), session.selection.len()),
                (false, 0, 0)
            );
            seen.gone += 1;
        }
        _ => {}
    }
}

/// The blocks that the files of a state hold.
fn held_blocks(state: &State) -> usize {
    let files = state.files.iter().flatten();
    files.map(|file| (file.length as usize + 255) / 256).sum()
}

#[test]
fn states_are_what_answers_say() {
    let mut seen = Seen::default();
    for index in 0..600 {
        let script = generator::story(generator::seed_of(11, index)).text();
        let played = play(&script, SIZES).expect("sizes of the table");
        let mut held = 0;
        for step in &played.steps {
            compare(step, &mut seen);
            let blocks = &step.after.blocks;
            held = blocks.iter().filter(|&&number| number != 0).count();
            assert_eq!(held, held_blocks(&step.after));
        }
        let last = format!("blocks\t{}\t{held}\n", 128 - held);
        assert!(played.sheet.ends_with(&last));
    }
    let Seen {
        begun,
        accepted,
        refused,
        selected,
        sent,
        listed,
        moved,
        ended,
        parts,
        gone,
    } = seen;
    let counts = [
        begun, accepted, refused, selected, sent, listed, moved, ended, parts, gone,
    ];
    assert!(
        counts.iter().all(|&count| count > 50),
        "too few of a kind: {counts:?}"
    );
}
