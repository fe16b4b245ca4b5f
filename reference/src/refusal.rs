//! The numbers of the refusals, named as in appendix D of the protocol paper
//! where that has a name. Numbers 1 to 16 go out in a packet, those from 32 are
//! local: they are told to the caller and change nothing.

pub const ILL_FORMED_COMMAND: u8 = 1;
pub const BAD_CONTINUE: u8 = 2;
/// File numbers, or at DATA_END upload times, are used up.
pub const USED_UP: u8 = 3;
pub const NO_SUCH_FILE: u8 = 4;
pub const SELECTION_EMPTY: u8 = 5;
pub const MANDATORY_FIELD_MISSING: u8 = 6;
pub const NO_HEADER: u8 = 7;
pub const POORLY_FORMED_SELECT: u8 = 8;
pub const NO_SUCH_DESTINATION: u8 = 10;
pub const PARTIAL_FILE: u8 = 11;
pub const FILE_COMPLETE: u8 = 12;
pub const NO_ROOM: u8 = 13;
pub const BAD_HEADER: u8 = 14;
pub const HEADER_CHECK: u8 = 15;
pub const BODY_CHECK: u8 = 16;

/// The lent output is too short.
pub const SHORT_OUTPUT: u8 = 32;
/// A size, length or type outside the table, or a lent buffer too short.
pub const OUT_OF_TABLE: u8 = 33;
/// The session's number is out of range, or it is not open, or already open.
pub const BAD_SESSION: u8 = 34;
/// The marking desk's: a line above its buffer, or one that is no script's.
pub const NOT_MARKED: u8 = 37;
