//! The numbers of the refusals. Those from 32 are local; the others go out in a packet.

pub const ILL_FORMED: u8 = 1;
pub const BAD_CONTINUE: u8 = 2;
pub const USED_UP: u8 = 3;
pub const NO_SUCH_FILE: u8 = 4;
pub const SELECTION_EMPTY: u8 = 5;
pub const ITEM_MISSING: u8 = 6;
pub const NO_HEADER: u8 = 7;
pub const BAD_EQUATION: u8 = 8;
pub const NO_SUCH_DESTINATION: u8 = 10;
pub const PARTIAL_FILE: u8 = 11;
pub const FILE_COMPLETE: u8 = 12;
pub const NO_ROOM: u8 = 13;
pub const BAD_HEADER: u8 = 14;
pub const HEADER_SUM: u8 = 15;
pub const BODY: u8 = 16;
pub const SHORT_OUTPUT: u8 = 32;
pub const OUT_OF_TABLE: u8 = 33;
pub const BAD_SESSION: u8 = 34;
