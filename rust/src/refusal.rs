//! The paper's numbers of refusal, by name.

pub const TOO_LONG: u32 = 1;
pub const NO_END: u32 = 2;
pub const LENGTH: u32 = 3;
pub const FIELD: u32 = 4;
pub const KIND: u32 = 5;
pub const COUNT: u32 = 6;
pub const RANGE: u32 = 7;
pub const NOT_NEXT: u32 = 8;
pub const TWICE: u32 = 9;

pub const FORM: u32 = 10;
pub const ABOVE: u32 = 11;
pub const SAID: u32 = 12;

pub const OUT_OF_RANGE: u32 = 20;
pub const CONTRADICTION: u32 = 21;
pub const UNSETTLED: u32 = 22;
pub const NO_BLOCK: u32 = 23;
pub const SHORT_BUFFER: u32 = 24;
pub const CLOSED: u32 = 25;
pub const MARKS: u32 = 26;
pub const UNSAID: u32 = 27;
pub const FALSE_CLAUSE: u32 = 28;
pub const NO_DRAW: u32 = 30;

pub const OTHER_SIZE: u32 = 31;
pub const CLASH: u32 = 32;
pub const TOO_MANY_LINES: u32 = 33;
