//! How a script begins and ends.

use super::{packet, two_numbers, Author};
use crate::generator::plans;
use crate::generator::themes::Prelude;
use crate::packet::Type;
use crate::script::{Line, LINE_MOST};
use crate::store::blocks_needed;

impl Author {
    pub(in crate::generator) fn begin(&mut self) {
        if self.random.chance(2, 3) {
            let clock = self.random.below(2000) as u32;
            self.write(Line::Time(clock));
        }
        match self.theme.prelude {
            Prelude::Nothing => {}
            Prelude::Files(most) => {
                self.write(Line::Open(1));
                for _ in 0..self.random.between(1, most) {
                    self.store_file();
                    if self.chance(self.theme.clock) {
                        self.turn_clock();
                    }
                }
            }
            Prelude::Partials => {
                for _ in 0..self.random.between(28, 32) {
                    self.write(Line::Open(1));
                    let length = *self.random.pick(&[0, 1, 80, 256, 257]);
                    let upload = packet(Type::UploadCmd, &two_numbers(0, length));
                    self.write(Line::Rx(1, upload));
                    self.write(Line::Drop(1));
                }
            }
            Prelude::LateClock => {
                let clock = u32::MAX - self.random.below(4) as u32;
                self.write(Line::Time(clock));
            }
        }
    }

    /// Uploads a sound file on session 1 in one line, where there is room.
    fn store_file(&mut self) {
        let file = if self.chance(self.theme.wide) {
            plans::wide(&mut self.random).bytes()
        } else {
            plans::sound(&mut self.random, self.theme.wishes.body).bytes()
        };
        if blocks_needed(file.len() as u32) > self.driver.server.store.free_blocks() {
            return;
        }
        let mut bytes = packet(Type::UploadCmd, &two_numbers(0, file.len() as u32));
        for piece in file.chunks(256) {
            bytes.extend(packet(Type::Data, piece));
        }
        bytes.extend(packet(Type::DataEnd, &[]));
        self.write(Line::Rx(1, bytes));
    }

    pub(in crate::generator) fn end(&mut self) {
        if self.random.chance(1, 6) {
            let line = self.unreadable();
            self.lines.push(line);
            if self.random.chance(1, 2) {
                self.lines.push(b"open\t1".to_vec());
            }
        }
        self.ends_whole = self.random.chance(5, 6);
    }

    fn unreadable(&mut self) -> Vec<u8> {
        if self.random.chance(1, 40) {
            let mut line = b"rx\t1\t".to_vec();
            line.resize(LINE_MOST + 1 + self.random.below(2), b'0');
            return line;
        }
        let lines: [&[u8]; 24] = [
            b"",
            b" ",
            b"\t",
            b"time",
            b"time\t",
            b"time\t4294967296",
            b"time\t12x",
            b"time\t-1",
            b"time 5",
            b"TIME\t5",
            b"open\t1\t",
            b"open\t",
            b"open",
            b"drop\tone",
            b"drop\t1\t1",
            b"rx",
            b"rx\t1",
            b"rx\t\t00",
            b"rx\t1\t0",
            b"rx\t1\t0A",
            b"rx\t1\t00\t",
            b"rx\t1\t00\r",
            b"rx\t1\t0\xff",
            b"close\t1",
        ];
        self.random.pick(&lines).to_vec()
    }
}
