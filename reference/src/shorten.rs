//! Cutting a script to a shortest one that still has some property: first by
//! lines, then by the packets and bytes of its `rx` lines.

use crate::packet::{announced, Frame, HEAD};
use crate::script::Line;

/// Removes parts as long as the rest still has the property. The result can't
/// lose any single part more.
fn cut<T: Clone>(parts: Vec<T>, mut holds: impl FnMut(&[T]) -> bool) -> Vec<T> {
    let mut parts = parts;
    let mut length = (parts.len() + 1) / 2;
    while length > 0 {
        let before = parts.len();
        let mut at = 0;
        while at < parts.len() {
            let end = (at + length).min(parts.len());
            let mut rest = parts[..at].to_vec();
            rest.extend_from_slice(&parts[end..]);
            if holds(&rest) {
                parts = rest;
            } else {
                at = end;
            }
        }
        // Single parts are tried again until none can go.
        if length > 1 || parts.len() == before {
            length /= 2;
        }
    }
    parts
}

fn text(lines: &[Vec<u8>]) -> Vec<u8> {
    lines.concat()
}

/// A shortest script that still has the property; the script itself has it.
pub fn shorten(script: &[u8], mut holds: impl FnMut(&[u8]) -> bool) -> Vec<u8> {
    let mut lines: Vec<Vec<u8>> = script
        .split_inclusive(|&byte| byte == b'\n')
        .map(<[u8]>::to_vec)
        .collect();
    loop {
        let before = text(&lines).len();
        lines = cut(lines, |rest| holds(&text(rest)));
        join_lines(&mut lines, &mut holds);
        for at in 0..lines.len() {
            shorten_line(&mut lines, at, &mut holds);
        }
        if text(&lines).len() == before {
            return text(&lines);
        }
    }
}

/// The session and bytes of an `rx` line, and how the line ends.
fn rx(line: &[u8]) -> Option<(u32, Vec<u8>, &'static str)> {
    let whole = line.strip_suffix(b"\n");
    match Line::parse(whole.unwrap_or(line))? {
        Line::Rx(session, bytes) => {
            let ending = if whole.is_some() { "\n" } else { "" };
            Some((session, bytes, ending))
        }
        _ => None,
    }
}

fn written(session: u32, bytes: &[u8], ending: &str) -> Vec<u8> {
    let line = Line::Rx(session, bytes.to_vec());
    format!("{line}{ending}").into_bytes()
}

/// Makes one line of two `rx` lines of a session, in the place of either.
fn join_lines(lines: &mut Vec<Vec<u8>>, holds: &mut impl FnMut(&[u8]) -> bool) {
    let mut at = 0;
    while at < lines.len() {
        match join_with_next(lines, at, holds) {
            Some(shorter) => *lines = shorter,
            None => at += 1,
        }
    }
}

/// The lines with an `rx` line joined to the next of its session.
fn join_with_next(
    lines: &[Vec<u8>],
    at: usize,
    holds: &mut impl FnMut(&[u8]) -> bool,
) -> Option<Vec<Vec<u8>>> {
    let (session, mut bytes, _) = rx(&lines[at])?;
    let of_session = |line: &Vec<u8>| matches!(rx(line), Some((other, _, _)) if other == session);
    let next = at + 1 + lines[at + 1..].iter().position(of_session)?;
    let (_, more, ending) = rx(&lines[next])?;
    bytes.extend(more);
    let mut later = lines.to_vec();
    later[next] = written(session, &bytes, ending);
    later.remove(at);
    if holds(&text(&later)) {
        return Some(later);
    }
    let mut earlier = lines.to_vec();
    earlier[at] = written(session, &bytes, "\n");
    earlier.remove(next);
    holds(&text(&earlier)).then_some(earlier)
}

/// Takes packets, then information, then any bytes out of one `rx` line.
fn shorten_line(lines: &mut Vec<Vec<u8>>, at: usize, holds: &mut impl FnMut(&[u8]) -> bool) {
    let (session, bytes, ending) = match rx(&lines[at]) {
        Some(parts) => parts,
        None => return,
    };
    let mut with = |bytes: &[u8]| {
        let mut shorter = lines.clone();
        shorter[at] = written(session, bytes, ending);
        holds(&text(&shorter)).then_some(shorter)
    };
    let mut packets = cut(packets(&bytes), |rest| with(&rest.concat()).is_some());
    for place in 0..packets.len() {
        let information = match packets[place].get(HEAD..) {
            Some(information) => information,
            None => continue,
        };
        let shortened = |rest: &[u8]| {
            let mut shorter = packets.clone();
            shorter[place] = of_length(&packets[place], rest);
            shorter
        };
        let kept = cut(information.to_vec(), |rest| {
            with(&shortened(rest).concat()).is_some()
        });
        if kept.len() < information.len() {
            packets = shortened(&kept);
        }
    }
    let kept = cut(packets.concat(), |rest| with(rest).is_some());
    // Where nothing could go, the line stays as it was written.
    if let Some(shorter) = with(&kept) {
        *lines = shorter;
    }
}

/// A packet of the same type with other information.
fn of_length(packet: &[u8], information: &[u8]) -> Vec<u8> {
    let length = information.len();
    let kind = announced(packet[0], packet[1]).kind;
    let mut bytes = vec![(length & 0xff) as u8, kind | ((length >> 8) << 5) as u8];
    bytes.extend(information);
    bytes
}

/// The bytes parted at the ends of packets, as a new link would take them.
fn packets(bytes: &[u8]) -> Vec<Vec<u8>> {
    let mut packets = Vec::new();
    let mut rest = bytes;
    while !rest.is_empty() {
        let (took, _) = Frame::new().feed(rest);
        packets.push(rest[..took].to_vec());
        rest = &rest[took..];
    }
    packets
}
