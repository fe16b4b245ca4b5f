//! The packets of selections, downloads and directories.
use super::{files, Author};
use crate::packets::{ack, directory, download, nak, packet, select};
use reference::generator::{destination, equation, offset};
use reference::header;
use reference::packet::Type;
use reference::server::{Downlink, Server, Session};

impl Author {
    pub(super) fn downlink_packet(
        &mut self,
        server: &Server,
        session: &Session,
        index: usize,
    ) -> Vec<u8> {
        match (session.downlink, self.random.below(16)) {
            (Downlink::Idle, _) => self.idle_command(server, session),
            (Downlink::Sending { .. } | Downlink::Listing { .. }, 1..=6) => nak(),
            (
                Downlink::Sending { .. } | Downlink::Aborting { .. } | Downlink::Listing { .. },
                1..=14,
            ) => self.uplink_packet(server, session, index),
            (Downlink::Ended { place }, 1..) => self.word(server, place),
            (_, 0) => self.idle_command(server, session),
            _ => ack(0),
        }
    }

    /// A command that an idle downlink takes.
    fn idle_command(&mut self, server: &Server, session: &Session) -> Vec<u8> {
        let left = session.selection.position < session.selection.numbers.len();
        match self.random.below(50) {
            0 | 1 => {
                let kind = *self.random.pick(&[Type::DirShortCmd, Type::DirLongCmd]);
                let length = *self.random.pick(&[0, 1, 3, 5, 8, 256]);
                packet(kind, &vec![0; length])
            }
            2 => nak(),
            3 => {
                let length = *self.random.pick(&[0, 8, 10]);
                packet(Type::DownloadCmd, &vec![1; length])
            }
            4..=12 => self.select(server),
            13..=22 if !left => self.select(server),
            13..=34 => {
                let (number, _) = self.number(server, session);
                directory(self.random.chance(1, 2), number)
            }
            _ => self.download(server, session),
        }
    }

    fn select(&mut self, server: &Server) -> Vec<u8> {
        // a few files are enough to make relations that some meet, and reading all would take long
        let short = files(server, |file| file.is_complete() && file.length < 3000);
        let mut known = Vec::new();
        for _ in 0..short.len().min(4) {
            let file = self.random.pick(&short);
            known.push(contents(server, file.number));
        }
        select(&equation(&mut self.random, &known))
    }

    /// A number to ask for, mostly one that can be had, and that of the file that is meant.
    fn number(&mut self, server: &Server, session: &Session) -> (u32, u32) {
        let selected = session.selection.numbers.get(session.selection.position);
        let any = self.random.chance(1, 4);
        let live = files(server, |file| any || file.is_complete());
        let number = match self.random.below(12) {
            0 => u32::MAX,
            1 => server.store.last_number.wrapping_add(1),
            2..=9 if selected.is_some() => 0,
            2 => 0,
            _ if live.is_empty() => 1,
            _ => self.random.pick(&live).number,
        };
        let meant = match number {
            0 => selected.copied().unwrap_or(0),
            _ => number,
        };
        (number, meant)
    }

    fn download(&mut self, server: &Server, session: &Session) -> Vec<u8> {
        let (number, meant) = self.number(server, session);
        let (length, destinations) = match server.store.find(meant) {
            Some(place) => (
                server.store.file(place).length,
                header::destinations(&server.store.contents(place)),
            ),
            None => (100, 0),
        };
        let offset = offset(&mut self.random, length);
        let lock = destination(&mut self.random, destinations);
        download(number, offset, lock)
    }

    /// The client's word after a download.
    fn word(&mut self, server: &Server, place: usize) -> Vec<u8> {
        match self.random.below(10) {
            0 => packet(Type::DlAckCmd, &[]),
            1 => packet(Type::DlAckCmd, &[0, 0]),
            2 | 3 => nak(),
            _ => {
                let destinations = header::destinations(&server.store.contents(place));
                ack(destination(&mut self.random, destinations))
            }
        }
    }
}

fn contents(server: &Server, number: u32) -> Vec<u8> {
    let place = server.store.find(number).expect("a file of that number");
    server.store.contents(place)
}
