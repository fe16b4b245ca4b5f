//! The file store. The blocks of a file are a chain, so its bytes are followed from block to block without a search, and a discarded file's blocks are
//! given back at once, whatever their number. A new file only reserves a number of blocks; each is taken when the first byte for it comes.

use crate::header;
use crate::refusal::{NO_ROOM, USED_UP};

/// The bytes of a storage block.
pub const BLOCK: usize = 256;

/// A file, partial or complete.
#[derive(Clone, Copy, Default)]
pub struct File {
    /// 0 where the place is free.
    pub number: u32,
    pub length: u32,
    pub received: u32,
    first: u16,
    last: u16,
    /// The sum of the bytes received, so that DATA_END need not read them again.
    pub sum: u16,
    /// Whether a session is uploading it.
    pub uploading: bool,
    pub complete: bool,
    /// Of a complete file, as the three below.
    pub upload_time: u32,
    pub header_length: u16,
    pub destinations: u16,
}

impl File {
    pub fn start(&self) -> Cursor {
        Cursor {
            block: self.first,
            at: 0,
        }
    }
}

/// A place in a file's bytes. At a block's end it is still in that block.
#[derive(Clone, Copy)]
pub struct Cursor {
    block: u16,
    at: u16,
}

pub struct Store {
    disk: Vec<[u8; BLOCK]>,
    /// For each block the one after it in its chain.
    next: Vec<u16>,
    /// The first block in the chain of those that hold no bytes.
    spare: u16,
    /// How many blocks are reserved for no file.
    pub free: usize,
    pub files: Vec<File>,
    /// The places of the complete files, oldest first. They are completed in the order of their upload times.
    pub complete: Vec<u16>,
    pub last_number: u32,
    pub last_time: u32,
}

fn blocks_needed(length: u32) -> usize {
    (length as usize + BLOCK - 1) / BLOCK
}

/// The sum of bytes, modulo 65,536.
pub fn sum(bytes: &[u8]) -> u16 {
    let add = |sum: u16, byte: &u8| sum.wrapping_add(u16::from(*byte));
    bytes.iter().fold(0, add)
}

impl Store {
    pub fn new(blocks: usize, files: usize) -> Store {
        Store {
            disk: vec![[0; BLOCK]; blocks],
            next: (1..=blocks as u16).collect(),
            spare: 0,
            free: blocks,
            files: vec![File::default(); files],
            complete: Vec::with_capacity(files),
            last_number: 0,
            last_time: 0,
        }
    }

    /// The place of the file with that number, which is not 0.
    pub fn find(&self, number: u32) -> Option<usize> {
        self.files.iter().position(|file| file.number == number)
    }

    /// Begins a new file and answers its place.
    pub fn begin(&mut self, length: u32) -> Result<usize, u8> {
        let number = self.last_number.checked_add(1).ok_or(USED_UP)?;
        let needed = blocks_needed(length);
        let place = self.files.iter().position(|file| file.number == 0);
        let place = place.filter(|_| needed <= self.free).ok_or(NO_ROOM)?;
        self.last_number = number;
        self.free -= needed;
        self.files[place] = File {
            number,
            length,
            ..File::default()
        };
        Ok(place)
    }

    /// Stores data behind the bytes received; false where they would pass the announced length.
    pub fn append(&mut self, place: usize, data: &[u8]) -> bool {
        let file = &mut self.files[place];
        if data.len() > (file.length - file.received) as usize {
            return false;
        }
        file.sum = file.sum.wrapping_add(sum(data));
        let mut rest = data;
        while !rest.is_empty() {
            let at = file.received as usize % BLOCK;
            if at == 0 {
                let block = self.spare;
                self.spare = self.next[usize::from(block)];
                match file.received {
                    0 => file.first = block,
                    _ => self.next[usize::from(file.last)] = block,
                }
                file.last = block;
            }
            let (now, later) = rest.split_at(rest.len().min(BLOCK - at));
            self.disk[usize::from(file.last)][at..at + now.len()].copy_from_slice(now);
            file.received += now.len() as u32;
            rest = later;
        }
        true
    }

    /// Forgets the bytes received; the file keeps its place and what is reserved for it.
    pub fn clear(&mut self, place: usize) {
        let file = &mut self.files[place];
        if file.received != 0 {
            self.next[usize::from(file.last)] = self.spare;
            self.spare = file.first;
        }
        file.received = 0;
        file.sum = 0;
    }

    /// Forgets a partial.
    pub fn discard(&mut self, place: usize) {
        self.clear(place);
        self.free += blocks_needed(self.files[place].length);
        self.files[place] = File::default();
    }

    /// Checks a partial at DATA_END and makes it a complete file, or answers the refusal's number.
    pub fn complete(&mut self, place: usize, clock: u32) -> Result<(), u8> {
        let found = header::check(self, &self.files[place])?;
        let time = self.last_time.checked_add(1).ok_or(USED_UP)?.max(clock);
        self.last_time = time;
        let file = &mut self.files[place];
        file.complete = true;
        file.upload_time = time;
        file.header_length = found.length;
        file.destinations = found.destinations;
        let file = *file;
        header::set_server_fields(self, &file, &found);
        self.complete.push(place as u16);
        Ok(())
    }

    // ---- the bytes of a file

    /// The first block of a file that has bytes.
    pub fn first_block(&self, file: &File) -> &[u8; BLOCK] {
        &self.disk[usize::from(file.first)]
    }

    pub fn first_block_mut(&mut self, file: &File) -> &mut [u8; BLOCK] {
        &mut self.disk[usize::from(file.first)]
    }

    /// Moves over bytes that the file has.
    pub fn skip(&self, cursor: &mut Cursor, count: usize) {
        let mut at = usize::from(cursor.at) + count;
        while at > BLOCK {
            cursor.block = self.next[usize::from(cursor.block)];
            at -= BLOCK;
        }
        cursor.at = at as u16;
    }

    /// As many of the next bytes as stand in one block, at most so many.
    pub fn run(&self, cursor: &mut Cursor, most: usize) -> &[u8] {
        if usize::from(cursor.at) == BLOCK {
            cursor.block = self.next[usize::from(cursor.block)];
            cursor.at = 0;
        }
        let at = usize::from(cursor.at);
        let end = BLOCK.min(at + most);
        cursor.at = end as u16;
        &self.disk[usize::from(cursor.block)][at..end]
    }

    /// Copies the next bytes.
    pub fn read(&self, cursor: &mut Cursor, to: &mut [u8]) {
        let mut done = 0;
        while done < to.len() {
            let run = self.run(cursor, to.len() - done);
            to[done..done + run.len()].copy_from_slice(run);
            done += run.len();
        }
    }

    /// Puts one byte in the place of the next and answers what stood there.
    pub fn replace(&mut self, cursor: &mut Cursor, byte: u8) -> u8 {
        self.run(cursor, 1);
        let block = &mut self.disk[usize::from(cursor.block)];
        std::mem::replace(&mut block[usize::from(cursor.at) - 1], byte)
    }
}
