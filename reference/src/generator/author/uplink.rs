//! The packets of a client that uploads.

use super::{packet, two_numbers, Author};
use crate::generator::plans::{self, Plan};
use crate::packet::Type;
use crate::server::{Server, Uplink};

impl Author {
    pub(super) fn uplink_packet(&mut self, server: &Server, index: usize) -> Vec<u8> {
        let session = server.sessions[index].as_ref().expect("an open session");
        match session.uplink {
            Uplink::Idle => self.upload_command(server, index),
            Uplink::Ignoring => match self.random.below(4) {
                0 => packet(Type::Data, &[]),
                1 => {
                    let length = self.random.between(1, 20);
                    packet(Type::Data, &self.random.bytes(length))
                }
                _ => packet(Type::DataEnd, &[]),
            },
            Uplink::Receiving { place, .. } => self.next_data(server, index, place),
        }
    }

    fn upload_command(&mut self, server: &Server, index: usize) -> Vec<u8> {
        if self.random.chance(1, 40) {
            let length = *self.random.pick(&[0, 1, 7, 9, 12]);
            return packet(Type::UploadCmd, &vec![0; length]);
        }
        let live: Vec<(u32, u32)> = server
            .store
            .places
            .iter()
            .flatten()
            .filter(|file| !file.is_complete() || self.random.chance(1, 15))
            .map(|file| (file.number, file.length))
            .collect();
        if !live.is_empty() && self.random.chance(1, 3) {
            return self.continuation(&live);
        }
        let plan = if self.chance(self.theme.wide) {
            Plan::whole(plans::wide(&mut self.random).bytes())
        } else {
            plans::plan(&mut self.random, self.theme.wishes)
        };
        let announced = plan.announced;
        self.meant[index] = Some(plan);
        packet(Type::UploadCmd, &two_numbers(0, announced))
    }

    /// Continues one of these files, given by number and length.
    fn continuation(&mut self, live: &[(u32, u32)]) -> Vec<u8> {
        let (number, length) = *self.random.pick(live);
        let (number, length) = match self.random.below(14) {
            0 => (number, length.wrapping_add(1)),
            1 => (number, self.random.below(400) as u32),
            2 => (number + 40, length),
            3 => (u32::MAX, length),
            _ => (number, length),
        };
        packet(Type::UploadCmd, &two_numbers(number, length))
    }

    fn next_data(&mut self, server: &Server, index: usize, place: usize) -> Vec<u8> {
        let file = server.store.file(place);
        let plan = match self.plans.get(&file.number).or(self.meant[index].as_ref()) {
            Some(plan) if plan.announced == file.length => plan.bytes.clone(),
            _ => Vec::new(),
        };
        let rest = plan.get(file.received as usize..).unwrap_or(&[]);
        if rest.is_empty() || self.random.chance(1, 50) {
            return self.data_end(file.length - file.received);
        }
        let most = rest.len().min(256);
        let length = match self.random.below(8) {
            0 => 0,
            1 => 1,
            2 | 3 => self.random.between(1, most),
            _ => most,
        };
        packet(Type::Data, &rest[..length])
    }

    /// The end of an upload, with some bytes too many now and then.
    fn data_end(&mut self, room: u32) -> Vec<u8> {
        match self.random.below(30) {
            0 if room < 256 => packet(Type::Data, &vec![0; room as usize + 1]),
            1 => packet(Type::DataEnd, &[0]),
            2 => packet(Type::Data, &[]),
            _ => packet(Type::DataEnd, &[]),
        }
    }
}
