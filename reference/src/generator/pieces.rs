//! Packets and their parts at random that take no account of a plan.

use crate::random::Random;

/// A packet without regard to the session's state.
pub fn stray(random: &mut Random) -> Vec<u8> {
    let (kind, length) = match random.below(10) {
        0 if random.chance(1, 4) => (random.below(32), random.between(250, 256)),
        0 => (random.below(32), random.between(257, 2047)),
        1 => (random.between(18, 31), random.below(6)),
        2 => {
            let own = [2, 4, 5, 6, 7, 9, 10, 11, 17];
            (*random.pick(&own), random.below(6))
        }
        3 => (random.below(18), random.below(12)),
        _ => {
            // Well formed, but perhaps in the wrong moment.
            let forms = [
                (0, 5),
                (1, 0),
                (1, 1),
                (3, 8),
                (3, 7),
                (8, 9),
                (12, 1),
                (12, 0),
                (13, 0),
                (13, 1),
                (14, 4),
                (15, 4),
                (16, 8),
            ];
            *random.pick(&forms)
        }
    };
    let mut bytes = vec![(length % 256) as u8, (kind + 32 * (length / 256)) as u8];
    // A link that is closed by the length takes no more.
    let follows = if length > 256 { 20 } else { length };
    bytes.extend(random.bytes(follows));
    bytes
}

/// The offset of a download, mostly one that the file has.
pub fn offset(random: &mut Random, length: u32) -> u32 {
    match random.below(12) {
        0 => length,
        1 => length.saturating_add(1),
        2 => length.saturating_sub(1),
        3 => random.below(length as usize + 1) as u32,
        4 => 256,
        5 => length.saturating_sub(256),
        6 if random.chance(1, 3) => u32::MAX,
        _ => 0,
    }
}

/// A lock or register destination, mostly one that the file has.
pub fn destination(random: &mut Random, destinations: usize) -> u8 {
    let number = match random.below(8) {
        0 => destinations + 1,
        1 => 255,
        2..=4 => random.below(destinations + 1),
        _ => 0,
    };
    number.min(255) as u8
}
