//! The packets of uploads: new files, continuations, data and their end.
use super::{files, is_full, Author};
use crate::packets::{data, data_end, packet, upload};
use reference::generator::{plan, sound, Plan};
use reference::packet::Type;
use reference::server::{Server, Session, Uplink};
use reference::store::File;

impl Author {
    pub(super) fn uplink_packet(
        &mut self,
        server: &Server,
        session: &Session,
        index: usize,
    ) -> Vec<u8> {
        match session.uplink {
            Uplink::Idle => self.upload_command(server, index),
            Uplink::Ignoring if self.random.chance(1, 3) => data(&[0; 20]),
            Uplink::Ignoring => data_end(),
            Uplink::Receiving { place, .. } => self.next_data(server.store.file(place), index),
        }
    }

    fn upload_command(&mut self, server: &Server, index: usize) -> Vec<u8> {
        if self.random.chance(1, 40) {
            let length = *self.random.pick(&[0, 1, 7, 9, 12]);
            return packet(Type::UploadCmd, &vec![0; length]);
        }
        let partials = files(server, |file| !file.is_complete());
        let continued = if is_full(server) { 80 } else { 33 };
        if !partials.is_empty() && self.chance(continued) {
            let file = *self.random.pick(&partials);
            return self.continuation(server, file);
        }
        let plan = match self.chance(self.habits.brim) {
            true => self.brim(server),
            false => plan(&mut self.random, self.habits.wishes),
        };
        let announced = plan.announced;
        self.meant[index] = Some(plan);
        upload(0, announced)
    }

    /// A file that fills the free blocks, or one byte less or more.
    fn brim(&mut self, server: &Server) -> Plan {
        let room = 256 * server.store.free_blocks();
        let bytes = match room {
            80..=20_000 if self.random.chance(1, 2) => {
                let file = sound(&mut self.random, 0);
                let length = file.bytes().len();
                file.with_body(&vec![7; room.saturating_sub(length)])
                    .bytes()
            }
            _ => vec![0xaa, 0x55],
        };
        let announced = match bytes.len() {
            2 => room + self.random.below(3) - room.min(1),
            length => length,
        };
        Plan {
            announced: announced as u32,
            bytes,
        }
    }

    fn continuation(&mut self, server: &Server, file: &File) -> Vec<u8> {
        let (number, length) = (file.number, file.length);
        let complete = files(server, File::is_complete);
        match self.random.below(14) {
            0 => upload(number, length.wrapping_add(1)),
            1 => upload(server.store.last_number.saturating_add(1), length),
            2 => upload(u32::MAX, length),
            3 if !complete.is_empty() => {
                let other = self.random.pick(&complete);
                upload(other.number, other.length)
            }
            _ => upload(number, length),
        }
    }

    fn next_data(&mut self, file: &File, index: usize) -> Vec<u8> {
        let plan = match self.plans.get(&file.number).or(self.meant[index].as_ref()) {
            Some(plan) if plan.announced == file.length => plan.bytes.as_slice(),
            _ => &[],
        };
        let rest = plan.get(file.received as usize..).unwrap_or(&[]);
        if rest.is_empty() || self.random.chance(1, 60) {
            let room = file.length - file.received;
            return match self.random.below(30) {
                0 if room < 256 => data(&vec![0; room as usize + 1]),
                1 => packet(Type::DataEnd, &[0]),
                2 => data(&[]),
                _ => data_end(),
            };
        }
        let most = rest.len().min(256);
        let length = match self.random.below(10) {
            0 => 0,
            1 => 1,
            2 | 3 => self.random.between(1, most),
            _ => most,
        };
        data(&rest[..length])
    }
}
