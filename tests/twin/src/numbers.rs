//! "Numbers given back": the list of document 01.

pub type Number = u8;

pub const DONE: Number = 0;
/// "table not sound"
pub const NOT_SOUND: Number = 1;
/// "no such step"
pub const NO_STEP: Number = 2;
/// "a site not 1 to the site count; a fresh table asked for outside 1 to 7"
pub const NO_SITE: Number = 3;
/// "the acting site is down"
pub const DOWN: Number = 4;
/// "update set empty or outside base, or an item above 23 in either"
pub const WRONG_SETS: Number = 5;
/// "base stamp not well formed"
pub const WRONG_STAMP: Number = 6;
/// "update value out of range"
pub const WRONG_VALUE: Number = 7;
/// "t would pass 4,294,967,295"
pub const NO_T_LEFT: Number = 8;
/// "16 requests held"
pub const REQUESTS_FULL: Number = 9;
/// "no request has that stamp"
pub const NO_REQUEST: Number = 10;
/// "teller has neither vote nor verdict, or tells itself"
pub const NOTHING_TO_TELL: Number = 11;
/// "64 messages held"
pub const MESSAGES_FULL: Number = 12;
/// "message place empty or above 63"
pub const NO_MESSAGE: Number = 13;
/// "retire: some site of the table has no verdict on it, or a message names it"
pub const NOT_SETTLED: Number = 14;
/// "up: already up"
pub const ALREADY_UP: Number = 15;
/// "read: item above 23"
pub const NO_ITEM: Number = 16;
/// "record cut or of wrong length"
pub const WRONG_RECORD: Number = 17;
/// "not a site file"
pub const NOT_A_SITE_FILE: Number = 18;
/// "output buffer too short, or readings to write not allowed"
pub const NOT_WRITTEN: Number = 19;
