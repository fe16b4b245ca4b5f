//! The functions of libprobe.a as they are: a slice passes as a pointer and the number of its elements, under the same rules as in
//! include/figmorella.h. What each call promises stands in crates/probe/src/lib.rt.

extern "C" {
    pub fn store_make(map: *mut u64, map_len: usize, owner: *mut u16, owner_len: usize) -> u8;
    pub fn store_free(map: *const u64, map_len: usize) -> usize;
    pub fn store_read(
        disk: *const u8,
        disk_len: usize,
        owner: *const u16,
        owner_len: usize,
        place: u16,
        at: usize,
        out: *mut u8,
        out_len: usize,
    ) -> u8;
    pub fn store_begin(
        map: *mut u64,
        map_len: usize,
        owner: *mut u16,
        owner_len: usize,
        table: *mut u32,
        table_len: usize,
        last: u32,
        size: u32,
    ) -> u32;
    pub fn store_append(
        disk: *mut u8,
        disk_len: usize,
        owner: *const u16,
        owner_len: usize,
        table: *mut u32,
        table_len: usize,
        place: usize,
        bytes: *const u8,
        bytes_len: usize,
    ) -> u8;
    pub fn store_discard(
        map: *mut u64,
        map_len: usize,
        owner: *mut u16,
        owner_len: usize,
        table: *mut u32,
        table_len: usize,
        place: usize,
    ) -> u8;
    pub fn store_check(
        disk: *const u8,
        disk_len: usize,
        owner: *const u16,
        owner_len: usize,
        table: *const u32,
        table_len: usize,
        place: usize,
    ) -> u8;
    pub fn store_complete(
        disk: *mut u8,
        disk_len: usize,
        owner: *const u16,
        owner_len: usize,
        table: *mut u32,
        table_len: usize,
        place: usize,
        time: u32,
    ) -> u8;
    pub fn store_select(
        eq: *const u8,
        eq_len: usize,
        disk: *const u8,
        disk_len: usize,
        owner: *const u16,
        owner_len: usize,
        table: *const u32,
        table_len: usize,
        selected: *mut u32,
        selected_len: usize,
        most: usize,
    ) -> u32;
    pub fn store_sound(
        map: *const u64,
        map_len: usize,
        owner: *const u16,
        owner_len: usize,
        table: *const u32,
        table_len: usize,
        last: u32,
        latest: u32,
    ) -> u8;
}
