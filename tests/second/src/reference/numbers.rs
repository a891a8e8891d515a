//! The numbers of document 01, "Numbers returned".

pub const DONE: u8 = 0;
pub const CUT_SHORT: u8 = 10;
pub const VERSION: u8 = 11;
pub const COUNTS: u8 = 12;
pub const DIAGONAL: u8 = 13;
pub const PARTITION: u8 = 14;
pub const EXCLUSION: u8 = 15;
pub const CHAIN: u8 = 16;
pub const LEFT_OVER: u8 = 17;
pub const PLAN: u8 = 18;
pub const MODULE: u8 = 20;
pub const FRAME: u8 = 21;
pub const SLOTS: u8 = 22;
pub const BUFFER: u8 = 23;
pub const TABLE: u8 = 24;
pub const POSITION: u8 = 25;
pub const NONE: u8 = 26;
pub const STOPPED: u8 = 27;

/// What a step answers in a tick that no slot covers.
pub const IDLE: u8 = 64;
/// The largest frame and the most slots that a table holds.
pub const LARGEST_FRAME: u64 = 16_777_215;
pub const MOST_SLOTS: u64 = 1_024;
