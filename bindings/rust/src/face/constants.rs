//! The constants of clp.h, under its names without `CLP_`.

// Values that are no length.

/// No line has ended yet, or there is no term.
pub const NONE: u64 = u64::MAX;
/// The target is SESSION.
pub const SESSION: u64 = u64::MAX;

// Sizes: the most that there is of each, and the room that is enough for every input.

/// A line has at most so many bytes, and the line buffer has exactly so many.
pub const LINE_BYTES: usize = 1024;
/// A line has at most so many terms.
pub const LINE_TERMS: usize = 64;
/// A line has at most so many properties.
pub const LINE_PROPERTIES: usize = 32;
/// The room for a line's records.
pub const READING_BYTES: usize = 399;
/// The room for a line's canonical writing.
pub const CANONICAL_BYTES: usize = 1978;
/// The room for the text of one line's records.
pub const TEXT_BYTES: usize = 2394;
/// A tree has at most so many nodes beside the root: the room for the numbers of those that a target addresses.
pub const TREE_NODES: usize = 512;
/// A node's record in a tree.
pub const NODE_BYTES: usize = 22;
/// The room for a full path.
pub const PATH_BYTES: usize = 11264;
/// A reply has at most so many bytes, and so has a text that one is written from: the room for a reply that is written.
pub const REPLY_BYTES: usize = 65535;
/// The room for a reply's records.
pub const REPLY_RECORDS_BYTES: usize = 196579;
/// So many groups of a reply are open at once, at most.
pub const REPLY_GROUPS: usize = 8;

// Stack: how deep a call goes at most.

/// Every function but [`full_path`](super::full_path).
pub const STACK_BYTES: usize = 8192;
/// [`full_path`](super::full_path), on a chain of as many nodes as a tree can have.
pub const STACK_PATH_BYTES: usize = 65536;

// Refusals, with their places.

/// A line over 1,024 bytes: 1,024.
pub const REFUSED_LONG_LINE: u64 = 1;
/// A byte outside 20h to 7Eh: the first such.
pub const REFUSED_BYTE: u64 = 2;
/// The last byte is a backtick that escapes nothing: its index.
pub const REFUSED_GRAVE: u64 = 3;
/// The line ends in a quote: the opening quote.
pub const REFUSED_QUOTE: u64 = 4;
/// Over 64 terms: start of the 65th.
pub const REFUSED_TERMS: u64 = 5;
/// No such verb: start of the term.
pub const REFUSED_VERB: u64 = 6;
/// No such option: start of the term.
pub const REFUSED_OPTION: u64 = 7;
/// An option already given, by either name: start of the term.
pub const REFUSED_OPTION_TWICE: u64 = 8;
/// An argument is missing, or its term starts with a bare `-`: that term, or the line's length.
pub const REFUSED_NO_ARGUMENT: u64 = 9;
/// An argument not of its form: the first byte that can't stay, or the term's end where more is wanted.
pub const REFUSED_ARGUMENT: u64 = 10;
/// A bare `-` starts a term after the options' end: start of the term.
pub const REFUSED_LATE_OPTION: u64 = 11;
/// A target not of its form: as for an argument.
pub const REFUSED_TARGET: u64 = 12;
/// A property not of its form: as for an argument.
pub const REFUSED_PROPERTY: u64 = 13;
/// Over 32 properties: start of the 33rd.
pub const REFUSED_PROPERTIES: u64 = 14;
/// A tree or records malformed: start of the first bad record.
pub const REFUSED_TREE: u64 = 15;
/// The default target, or the node asked for, is no node: 0.
pub const REFUSED_NODE: u64 = 16;
/// `..` at the root: start of the segment.
pub const REFUSED_ABOVE_ROOT: u64 = 17;
/// No such child: start of the segment.
pub const REFUSED_CHILD: u64 = 18;
/// The lent room is too small, or a bad state or line buffer in joining: 0.
pub const REFUSED_ROOM: u64 = 19;
/// An option that this verb can't have: start of the term.
pub const REFUSED_NOT_FOR_VERB: u64 = 20;
/// A line of a reply of no form, or a bad record of one: start of the line or record. A reply or a text too long: 0.
pub const REFUSED_REPLY_LINE: u64 = 21;
/// `endgroup` without an open group: start of the line or record.
pub const REFUSED_GROUP_END: u64 = 22;
/// A group in eight open ones: start of the line or record.
pub const REFUSED_DEPTH: u64 = 23;
/// `endoutput` in an open group: start of the line or record.
pub const REFUSED_OPEN_GROUP: u64 = 24;
/// A reply, or records of one, without `endoutput`, or a quote that is not closed: their length.
pub const REFUSED_NO_END: u64 = 25;

// Kinds of records: a record's first byte.

/// A verb: its number.
pub const KIND_VERB: u8 = 1;
/// An option: its number, its argument's position and length.
pub const KIND_OPTION: u8 = 2;
/// A target: its position and length.
pub const KIND_TARGET: u8 = 3;
/// A property: its name's position and length, its operator, its value's position and length.
pub const KIND_PROPERTY: u8 = 4;
/// A refused line: number and place.
pub const KIND_REFUSAL: u8 = 5;
/// A line without terms.
pub const KIND_BLANK: u8 = 6;
/// The capture ended inside a line.
pub const KIND_CUT: u8 = 7;
/// A node of a tree.
pub const KIND_NODE: u8 = 16;
/// An item of a reply: its keyword's position and length, its value's position and length.
pub const KIND_ITEM: u8 = 64;
/// A group of a reply opens: its type's position and length.
pub const KIND_GROUP: u8 = 65;
/// A group of a reply ends.
pub const KIND_END_GROUP: u8 = 66;
/// A reply ends.
pub const KIND_END_OUTPUT: u8 = 67;

// How many bytes a record has, its kind included.

/// A verb's record.
pub const VERB_BYTES: usize = 2;
/// An option's record.
pub const OPTION_BYTES: usize = 6;
/// A target's record.
pub const TARGET_BYTES: usize = 5;
/// A property's record.
pub const PROPERTY_BYTES: usize = 10;
/// A refusal's record.
pub const REFUSAL_BYTES: usize = 4;
/// A blank line's record.
pub const BLANK_BYTES: usize = 1;
/// A cut's record.
pub const CUT_BYTES: usize = 1;
/// An item's record.
pub const ITEM_BYTES: usize = 9;
/// A group's record.
pub const GROUP_BYTES: usize = 5;
/// The record of a group's end.
pub const END_GROUP_BYTES: usize = 1;
/// The record of a reply's end.
pub const END_OUTPUT_BYTES: usize = 1;

// Numbers of the verbs.

/// `cd`
pub const VERB_CD: u8 = 1;
/// `create`
pub const VERB_CREATE: u8 = 2;
/// `delete`
pub const VERB_DELETE: u8 = 3;
/// `dump`
pub const VERB_DUMP: u8 = 4;
/// `exit`
pub const VERB_EXIT: u8 = 5;
/// `help`
pub const VERB_HELP: u8 = 6;
/// `load`
pub const VERB_LOAD: u8 = 7;
/// `reset`
pub const VERB_RESET: u8 = 8;
/// `set`
pub const VERB_SET: u8 = 9;
/// `show`
pub const VERB_SHOW: u8 = 10;
/// `start`
pub const VERB_START: u8 = 11;
/// `stop`
pub const VERB_STOP: u8 = 12;
/// `version`
pub const VERB_VERSION: u8 = 13;

// Numbers of the options.

/// `-all`, `-a`
pub const OPTION_ALL: u8 = 1;
/// `-destination`, with an argument
pub const OPTION_DESTINATION: u8 = 2;
/// `-display`, `-d`, with an argument
pub const OPTION_DISPLAY: u8 = 3;
/// `-examine`, `-x`
pub const OPTION_EXAMINE: u8 = 4;
/// `-force`, `-f`
pub const OPTION_FORCE: u8 = 5;
/// `-help`, `-h`
pub const OPTION_HELP: u8 = 6;
/// `-keep`, `-k`, with an argument
pub const OPTION_KEEP: u8 = 7;
/// `-level`, `-l`, with an argument
pub const OPTION_LEVEL: u8 = 8;
/// `-output`, `-o`, with an argument
pub const OPTION_OUTPUT: u8 = 9;
/// `-source`, with an argument
pub const OPTION_SOURCE: u8 = 10;
/// `-version`, `-v`
pub const OPTION_VERSION: u8 = 11;
/// `-wait`, `-w`
pub const OPTION_WAIT: u8 = 12;

// Numbers of the operators, which are also the lengths of their signs.

/// A mere name.
pub const OPERATOR_NONE: u8 = 0;
/// `name=value`
pub const OPERATOR_SET: u8 = 1;
/// `name==value`
pub const OPERATOR_EQUALS: u8 = 2;

// What the joiner's state tells.

/// `state & STATE_HELD`: how many bytes of the line the buffer holds.
pub const STATE_HELD: u64 = 2047;
/// The last byte used was a backtick that waits for the next byte, and is not held yet.
pub const STATE_GRAVE: u64 = 2048;
/// The last byte used was a CR: a LF that comes next is dropped.
pub const STATE_CR: u64 = 4096;
/// The line is too long; the buffer holds its first [`LINE_BYTES`].
pub const STATE_LONG: u64 = 8192;
