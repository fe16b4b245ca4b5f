//! What is wrong in a file that the server refused. The number is the server's; this only looks for the place, in the order of the checks, and says
//! nothing where it finds another number.
use crate::bytes::{number, sum};
use crate::header::{self, End, Item};
use crate::names::*;

/// The number of the first check that fails, and what is wrong where.
pub type Blame = (u8, String);

/// Looks at a file at DATA_END, of which so many bytes were announced.
pub fn blame(file: &[u8], announced: u32) -> Option<Blame> {
    let (items, end) = header::read(file);
    short(file, announced)
        .or_else(|| form(file, &end))
        .or_else(|| items_wrong(&items))
        .or_else(|| unfinished(&end))
        .or_else(|| missing(&items))
        .or_else(|| lengths(&items, &end, announced))
        .or_else(|| sums(file, &items, &end))
}

fn short(file: &[u8], announced: u32) -> Option<Blame> {
    let came = file.len();
    (came < announced as usize).then(|| {
        (
            16,
            format!("{announced} bytes were announced and {came} have come"),
        )
    })
}

fn form(file: &[u8], end: &End) -> Option<Blame> {
    let found: Vec<String> = file
        .iter()
        .take(2)
        .map(|byte| format!("{byte:02x}"))
        .collect();
    match end {
        End::NoMark if found.is_empty() => Some((7, "the file is empty".to_string())),
        End::NoMark => Some((
            7,
            format!("the file begins {} and not aa 55", found.join(" ")),
        )),
        _ => None,
    }
}

/// The leftmost item that breaks a rule, if it stands before the place where the items run out.
fn items_wrong(items: &[Item]) -> Option<Blame> {
    let mut seen: Vec<u16> = Vec::new();
    let mut others = false;
    for item in items {
        let name = name_of(item.id);
        let at = item.at;
        let blame = |words: String| Some((14, format!("byte {at}: {words}")));
        match listed_length(item.id) {
            Some(length) if length != item.data.len() => {
                return blame(format!(
                    "{name} has {} byte(s) and not {length}",
                    item.data.len()
                ))
            }
            Some(_) if seen.contains(&item.id) => {
                return blame(format!("{name} comes a second time"))
            }
            _ => {}
        }
        if item.id <= BODY_OFFSET {
            if others {
                return blame(format!(
                    "{name} stands behind an item that is not one of 01 to 0b"
                ));
            }
            if seen.iter().any(|&before| before > item.id) {
                return blame(format!(
                    "{name} stands behind an item with a larger id: 01 to 0b must rise"
                ));
            }
        } else {
            others = true;
        }
        seen.push(item.id);
    }
    None
}

fn unfinished(end: &End) -> Option<Blame> {
    match end {
        End::RunsOut(at) => Some((
            14,
            format!("byte {at}: the bytes run out before the end mark 00 00 00"),
        )),
        End::ZeroId(at) => Some((14, format!("byte {at}: id 0 has a length"))),
        End::Whole(_) | End::NoMark => None,
    }
}

fn missing(items: &[Item]) -> Option<Blame> {
    let absent = MANDATORY
        .iter()
        .filter(|(id, _)| items.iter().all(|item| item.id != *id));
    let names: Vec<String> = absent.map(|(id, _)| name_of(*id)).collect();
    (!names.is_empty()).then(|| (6, format!("missing: {}", names.join(", "))))
}

/// The number in the item with that id, and the place of the item.
fn told(items: &[Item], id: u16) -> Option<(u32, usize)> {
    let item = items.iter().find(|item| item.id == id)?;
    Some((number(item.data), item.at))
}

fn lengths(items: &[Item], end: &End, announced: u32) -> Option<Blame> {
    let header = match end {
        End::Whole(length) => *length as u32,
        _ => return None,
    };
    let (offset, offset_at) = told(items, BODY_OFFSET)?;
    let (size, size_at) = told(items, FILE_SIZE)?;
    if offset != header {
        return Some((
            14,
            format!("byte {offset_at}: body_offset is {offset}, and the header has {header} bytes"),
        ));
    }
    (size != announced).then(|| {
        (
            14,
            format!("byte {size_at}: file_size is {size}, and {announced} bytes were announced"),
        )
    })
}

fn sums(file: &[u8], items: &[Item], end: &End) -> Option<Blame> {
    let header = match end {
        End::Whole(length) => *length,
        _ => return None,
    };
    let (written, at) = told(items, HEADER_CHECKSUM)?;
    let own = sum(&file[at + 3..at + 5]);
    let right = sum(&file[..header]).wrapping_sub(own);
    if written != u32::from(right) {
        return Some((
            15,
            format!(
                "byte {at}: header_checksum is {written}, and the header's bytes sum to {right}"
            ),
        ));
    }
    let (written, at) = told(items, BODY_CHECKSUM)?;
    let right = sum(&file[header..]);
    (written != u32::from(right)).then(|| {
        (
            16,
            format!("byte {at}: body_checksum is {written}, and the body's bytes sum to {right}"),
        )
    })
}
