//! The proved store. Its memory stands in one struct, so that no pointer is given with another's length; every call is safe.
use crate::probe::*;

/// The slices that a caller lends. The calls take any of any lengths, so every function here is safe.
#[derive(Clone, PartialEq, Eq, Debug)]
pub struct Store {
    pub map: Vec<u64>,
    pub owner: Vec<u16>,
    pub disk: Vec<u8>,
    pub table: Vec<u32>,
}

/// An answer of one number that is a refusal below 256, else 256 plus a value.
pub type Answer = Result<usize, u8>;

fn answer(code: u32) -> Answer {
    match u8::try_from(code) {
        Ok(refused) => Err(refused),
        Err(_) => Ok(code as usize - 256),
    }
}

impl Store {
    /// Slices for so many blocks and files with arbitrary contents, the table with no file.
    pub fn lent(blocks: usize, files: usize) -> Store {
        Store {
            map: vec![0x5555_5555_5555_5555; (blocks + 63) / 64],
            owner: vec![0x7777; blocks],
            disk: (0..256 * blocks).map(|i| (i * 7 + i / 256) as u8).collect(),
            table: vec![0; 4 * files],
        }
    }

    /// An empty store.
    pub fn empty(blocks: usize, files: usize) -> Store {
        let mut s = Store::lent(blocks, files);
        assert_eq!(s.make(), 0);
        s
    }

    pub fn make(&mut self) -> u8 {
        call!(store_make[](self: map, owner)[])
    }

    pub fn free(&self) -> usize {
        call!(store_free[](&self: map)[])
    }

    pub fn read(&self, place: u16, at: usize, out: &mut [u8]) -> u8 {
        call!(store_read[](&self: disk, owner)[place, at, out.as_mut_ptr(), out.len()])
    }

    /// The place of a new file.
    pub fn begin(&mut self, last: u32, size: u32) -> Answer {
        answer(call!(store_begin[](self: map, owner, table)[last, size]))
    }

    pub fn append(&mut self, place: usize, more: &[u8]) -> u8 {
        call!(store_append[](self: disk, owner, table)[place, more.as_ptr(), more.len()])
    }

    pub fn discard(&mut self, place: usize) -> u8 {
        call!(store_discard[](self: map, owner, table)[place])
    }

    pub fn check(&self, place: usize) -> u8 {
        call!(store_check[](&self: disk, owner, table)[place])
    }

    pub fn complete(&mut self, place: usize, time: u32) -> u8 {
        call!(store_complete[](self: disk, owner, table)[place, time])
    }

    /// How many files were selected.
    pub fn select(&self, eq: &[u8], selected: &mut [u32], most: usize) -> Answer {
        answer(
            call!(store_select[eq.as_ptr(), eq.len()](&self: disk, owner, table)[
                selected.as_mut_ptr(), selected.len(), most
            ]),
        )
    }

    pub fn sound(&self, last: u32, latest: u32) -> u8 {
        call!(store_sound[](&self: map, owner, table)[last, latest])
    }
}
