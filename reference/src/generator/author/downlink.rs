//! The packets of a client that selects, downloads and asks for directories.

use super::{packet, two_numbers, Author};
use crate::generator::equations;
use crate::generator::pieces::{destination, offset};
use crate::header;
use crate::packet::Type;
use crate::server::{Downlink, Server};

impl Author {
    pub(super) fn downlink_packet(&mut self, server: &Server, index: usize) -> Vec<u8> {
        let session = server.sessions[index].as_ref().expect("an open session");
        match session.downlink {
            Downlink::Idle => self.idle_command(server, index),
            Downlink::Sending { .. } | Downlink::Listing { .. } => match self.random.below(6) {
                0..=2 => packet(Type::DlNakCmd, &[]),
                3 => self.word(server, index),
                4 => self.idle_command(server, index),
                _ => self.uplink_packet(server, index),
            },
            Downlink::Ended { .. } => match self.random.below(16) {
                0 => self.idle_command(server, index),
                _ => self.word(server, index),
            },
            Downlink::Aborting { .. } => match self.random.below(4) {
                0 => self.idle_command(server, index),
                1 => self.word(server, index),
                _ => self.uplink_packet(server, index),
            },
        }
    }

    /// A command that an idle downlink takes.
    fn idle_command(&mut self, server: &Server, index: usize) -> Vec<u8> {
        match self.random.below(40) {
            0 => {
                let length = *self.random.pick(&[0, 1, 3, 5, 9, 256]);
                packet(self.directory_command(), &vec![0; length])
            }
            1 | 2 => packet(Type::DlNakCmd, &[]),
            3 => {
                let length = *self.random.pick(&[0, 8, 10]);
                packet(Type::DownloadCmd, &vec![1; length])
            }
            4..=20 if !self.goes_on(server, index) => self.select(server),
            _ if self.chance(self.theme.directory) => self.directory(server, index),
            _ => self.download(server, index),
        }
    }

    fn select(&mut self, server: &Server) -> Vec<u8> {
        let mut files = Vec::new();
        for (place, file) in server.store.places.iter().enumerate() {
            if matches!(file, Some(file) if file.is_complete()) {
                files.push(server.store.contents(place));
            }
        }
        let equation = equations::equation(&mut self.random, &files);
        packet(Type::SelectCmd, &equation)
    }

    /// Whether the client goes on with the files selected before.
    fn goes_on(&mut self, server: &Server, index: usize) -> bool {
        let session = server.sessions[index].as_ref().expect("an open session");
        let selection = &session.selection;
        selection.position < selection.numbers.len() && self.chance(self.theme.directory)
    }

    fn directory_command(&mut self) -> Type {
        *self.random.pick(&[Type::DirShortCmd, Type::DirLongCmd])
    }

    fn directory(&mut self, server: &Server, index: usize) -> Vec<u8> {
        let (number, _) = self.file_number(server, index);
        packet(self.directory_command(), &number.to_le_bytes())
    }

    /// The number of a file to ask for, mostly one that can be had, and that
    /// of the next selected file.
    fn file_number(&mut self, server: &Server, index: usize) -> (u32, Option<u32>) {
        let session = server.sessions[index].as_ref().expect("an open session");
        let selection = &session.selection;
        let selected = selection.numbers.get(selection.position).copied();
        let files = server.store.places.iter().flatten();
        let live: Vec<u32> = files.map(|file| file.number).collect();
        let number = match self.random.below(12) {
            0 => u32::MAX,
            1 => self.random.below(40) as u32,
            2..=7 if selected.is_some() => 0,
            2 => 0,
            3 | 4 if !selection.numbers.is_empty() => 0,
            _ if live.is_empty() => 1,
            _ => *self.random.pick(&live),
        };
        (number, selected)
    }

    fn download(&mut self, server: &Server, index: usize) -> Vec<u8> {
        let (number, selected) = self.file_number(server, index);
        let meant = if number == 0 {
            selected.unwrap_or(0)
        } else {
            number
        };
        let (length, destinations) = match server.store.find(meant) {
            Some(place) => (
                server.store.file(place).length,
                header::destinations(&server.store.contents(place)),
            ),
            None => (100, 0),
        };
        let offset = offset(&mut self.random, length);
        let mut information = two_numbers(number, offset);
        information.push(destination(&mut self.random, destinations));
        packet(Type::DownloadCmd, &information)
    }

    /// The client's word after a download.
    fn word(&mut self, server: &Server, index: usize) -> Vec<u8> {
        let session = server.sessions[index].as_ref().expect("an open session");
        let destinations = match session.downlink {
            Downlink::Ended { place } => header::destinations(&server.store.contents(place)),
            _ => 0,
        };
        match self.random.below(10) {
            0 => packet(Type::DlAckCmd, &[]),
            1 => packet(Type::DlAckCmd, &[0, 0]),
            2 | 3 => packet(Type::DlNakCmd, &[]),
            _ => packet(
                Type::DlAckCmd,
                &[destination(&mut self.random, destinations)],
            ),
        }
    }
}
