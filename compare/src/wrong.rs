//! The one thing that is wrong with the library of a test, and a number for each such thing.

use std::cell::Cell;

thread_local! {
    pub static WRONG: Cell<u32> = const { Cell::new(NOTHING) };
}

/// Whether this is the thing that is wrong.
pub fn is(what: u32) -> bool {
    WRONG.get() == what
}

pub const NOTHING: u32 = 0;
pub const RAY_ODDS_BIT: u32 = 1;
pub const RAY_NUMBER: u32 = 2;
pub const LIST_ODDS_BIT: u32 = 3;
pub const LIST_STAMP: u32 = 4;
pub const LIST_COUNT: u32 = 5;
pub const LIST_PLACE: u32 = 6;
pub const LIST_COUNT_SO_FAR: u32 = 7;
pub const LIST_LAST_BEAM: u32 = 8;
pub const FREE_CHANGED: u32 = 9;
pub const OCCUPIED_VALUES: u32 = 10;
pub const SET_ODDS: u32 = 11;
pub const READ_FOUND: u32 = 12;
pub const SAMPLE_GRADIENT_BIT: u32 = 13;
pub const CELL_INDEX: u32 = 14;
pub const OPEN_FRAME: u32 = 15;
pub const OPEN_BUFFER: u32 = 16;
pub const RESET_ZERO_SIGN: u32 = 17;
pub const NEW_STAMP: u32 = 18;
pub const LINE_THRESHOLD_BIT: u32 = 19;
pub const STEP_REMAINING: u32 = 20;
pub const READ_ODDS_BIT: u32 = 21;
pub const NEW_MODEL: u32 = 22;
pub const STRUCTS_ODDS_BIT: u32 = 23;
pub const STRUCTS_PLACE: u32 = 24;
pub const STRUCTS_LAST_BEAM: u32 = 25;
pub const STRUCTS_HIT: u32 = 26;
pub const LENT_FRAME: u32 = 27;
pub const LENT_MODEL_BIT: u32 = 28;
pub const LENT_REFUSED: u32 = 29;
pub const SET_NAN: u32 = 30;
pub const OCCUPIED_AXES: u32 = 31;
pub const CELL_AXES: u32 = 32;
pub const MANY_LAST_BIT: u32 = 33;
pub const MANY_CLEARED: u32 = 34;
pub const MANY_MARK: u32 = 35;
pub const MANY_UNEQUAL: u32 = 36;
pub const VERTICAL_ODDS_BIT: u32 = 37;
pub const VERTICAL_RAN_OUT: u32 = 38;
pub const VERTICAL_ONE_SHORT: u32 = 39;
pub const VERTICAL_PROFILE: u32 = 40;
