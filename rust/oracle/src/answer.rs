//! The answer numbers of document 01's table, and those that document 02 adds.

/// 0: done.
pub const DONE: u8 = 0;
/// 1: a lent output, buffer or text of a wrong size, fewer answers than codes, or too little room for differences.
pub const SIZE: u8 = 1;
/// 2: under 3 bytes.
pub const SHORT: u8 = 2;
/// 3: first byte wrong.
pub const FIRST_BYTE: u8 = 3;
/// 4: length byte wrong, or the slice does not agree with it.
pub const LENGTH: u8 = 4;
/// 5: checksum wrong.
pub const CHECKSUM: u8 = 5;
/// 6: command not in the table of this end, or no body towards the display.
pub const COMMAND: u8 = 6;
/// 7: body length or a field wrong for the command, over 64 settings, or unequally many codes and values.
pub const FIELD: u8 = 7;
/// 8: VCP code not allowed.
pub const CODE: u8 = 8;
/// 9: value above the maximum.
pub const VALUE: u8 = 9;
/// 10: offset or fragment not the one wanted.
pub const OFFSET: u8 = 10;
/// 11: text too long for its room.
pub const TOO_LONG: u8 = 11;
/// 12: null message read by the host.
pub const NULL: u8 = 12;
/// 13: capabilities string, grammar.
pub const GRAMMAR: u8 = 13;
/// 14: capabilities string, node room.
pub const NODE_ROOM: u8 = 14;
/// 15: capabilities string, depth.
pub const DEPTH: u8 = 15;
/// 16: transfer already closed.
pub const CLOSED: u8 = 16;
/// 17: a record broken, of a settings profile or of a call list, or by form a code that does not rise.
pub const RECORD: u8 = 17;
/// 18: declaration, fragment size or budget not allowed.
pub const NOT_ALLOWED: u8 = 18;
/// 19: a call list that has a token twice.
pub const REPEATED_TOKEN: u8 = 19;
/// 20: a call list that has a household twice.
pub const REPEATED_HOUSEHOLD: u8 = 20;
