//! The file store: storage blocks, file places, file numbers, upload times and
//! the bytes of the files.

use crate::equation::Equation;
use crate::header;
use crate::refusal::{NO_ROOM, USED_UP};

/// The bytes of a storage block.
pub const BLOCK: usize = 256;

/// The record of a file, partial or complete.
#[derive(Clone, Debug, PartialEq, Eq)]
pub struct File {
    pub number: u32,
    /// The length that the first UPLOAD_CMD announced.
    pub length: u32,
    /// How many bytes are stored.
    pub received: u32,
    /// A complete file has one.
    pub upload_time: Option<u32>,
    /// Its blocks, in the order in which they hold its bytes.
    pub blocks: Vec<usize>,
}

impl File {
    pub fn is_complete(&self) -> bool {
        self.upload_time.is_some()
    }
}

#[derive(Clone, Debug, PartialEq, Eq)]
pub struct Store {
    /// For each block whether it is free.
    pub free: Vec<bool>,
    pub places: Vec<Option<File>>,
    /// The bytes of all blocks. Blocks are not cleared when they become free.
    pub disk: Vec<u8>,
    /// The last file number given; 0 before the first.
    pub last_number: u32,
    /// The last upload time given; 0 before the first.
    pub last_time: u32,
}

/// The blocks that a file of that length takes.
pub fn blocks_needed(length: u32) -> usize {
    (length as usize + BLOCK - 1) / BLOCK
}

/// The next upload time: the clock, or the last one plus 1 if that is larger.
/// There is none once 4,294,967,295 was given.
pub fn next_time(last: u32, clock: u32) -> Option<u32> {
    last.checked_add(1).map(|next| next.max(clock))
}

impl Store {
    pub fn new(blocks: usize, files: usize) -> Store {
        Store {
            free: vec![true; blocks],
            places: vec![None; files],
            disk: vec![0; blocks * BLOCK],
            last_number: 0,
            last_time: 0,
        }
    }

    pub fn free_blocks(&self) -> usize {
        self.free.iter().filter(|free| **free).count()
    }

    pub fn held_blocks(&self) -> usize {
        self.free.len() - self.free_blocks()
    }

    /// The place of the file with that number.
    pub fn find(&self, number: u32) -> Option<usize> {
        self.places
            .iter()
            .position(|place| matches!(place, Some(file) if file.number == number))
    }

    /// The file at a place that is known to hold one.
    pub fn file(&self, place: usize) -> &File {
        self.places[place].as_ref().expect("a place with a file")
    }

    fn file_mut(&mut self, place: usize) -> &mut File {
        self.places[place].as_mut().expect("a place with a file")
    }

    /// Begins a new file: the number after the last one given, the lowest free
    /// place and the lowest free blocks. Answers its place.
    pub fn begin(&mut self, length: u32) -> Result<usize, u8> {
        let number = self.last_number.checked_add(1).ok_or(USED_UP)?;
        let needed = blocks_needed(length);
        if self.free_blocks() < needed {
            return Err(NO_ROOM);
        }
        let place = self
            .places
            .iter()
            .position(Option::is_none)
            .ok_or(NO_ROOM)?;
        self.last_number = number;
        self.places[place] = Some(File {
            number,
            length,
            received: 0,
            upload_time: None,
            blocks: self.reserve(needed),
        });
        Ok(place)
    }

    /// Takes the lowest free blocks; enough are free.
    fn reserve(&mut self, needed: usize) -> Vec<usize> {
        let blocks: Vec<usize> = (0..self.free.len())
            .filter(|&block| self.free[block])
            .take(needed)
            .collect();
        for &block in &blocks {
            self.free[block] = false;
        }
        blocks
    }

    /// Whether so many more bytes stay within the announced length.
    pub fn fits(&self, place: usize, more: usize) -> bool {
        let file = self.file(place);
        file.received as usize + more <= file.length as usize
    }

    /// Stores data that fit behind the bytes received.
    pub fn append(&mut self, place: usize, data: &[u8]) {
        let received = self.file(place).received as usize;
        self.put(place, received, data);
        self.file_mut(place).received += data.len() as u32;
    }

    fn put(&mut self, place: usize, from: usize, data: &[u8]) {
        for (index, byte) in data.iter().enumerate() {
            let at = self.address(place, from + index);
            self.disk[at] = *byte;
        }
    }

    /// Where the file's byte with that index stands on the disk.
    fn address(&self, place: usize, index: usize) -> usize {
        self.file(place).blocks[index / BLOCK] * BLOCK + index % BLOCK
    }

    /// The file's stored bytes from one index up to, not including, another.
    pub fn part(&self, place: usize, from: usize, to: usize) -> Vec<u8> {
        (from..to)
            .map(|index| self.disk[self.address(place, index)])
            .collect()
    }

    /// All stored bytes of a file.
    pub fn contents(&self, place: usize) -> Vec<u8> {
        self.part(place, 0, self.file(place).received as usize)
    }

    /// Forgets a partial; its number stays given.
    pub fn discard(&mut self, place: usize) {
        let file = self.places[place].take().expect("a place with a file");
        for block in file.blocks {
            self.free[block] = true;
        }
    }

    /// Checks a partial at DATA_END and makes it a complete file, or answers
    /// the refusal's number and leaves it as it is.
    pub fn complete(&mut self, place: usize, clock: u32) -> Result<(), u8> {
        let File { number, length, .. } = *self.file(place);
        let mut contents = self.contents(place);
        let header = header::check(&contents, length).map_err(header::Fault::number)?;
        let time = next_time(self.last_time, clock).ok_or(USED_UP)?;
        header::set_server_fields(&mut contents, &header, number, time);
        self.put(place, 0, &contents);
        self.file_mut(place).upload_time = Some(time);
        self.last_time = time;
        Ok(())
    }

    /// The numbers of the oldest matching complete files, oldest first, at
    /// most so many.
    pub fn select(&self, equation: &Equation, most: usize) -> Vec<u32> {
        let mut matching: Vec<(u32, u32)> = Vec::new();
        for (place, file) in self.places.iter().enumerate() {
            if let Some(File {
                number,
                upload_time: Some(time),
                ..
            }) = file
            {
                if equation.holds(&self.contents(place)) {
                    matching.push((*time, *number));
                }
            }
        }
        matching.sort_unstable();
        matching.truncate(most);
        matching.into_iter().map(|(_, number)| number).collect()
    }
}
