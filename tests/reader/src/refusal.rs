//! "Numbers a refused caller gets": the number of a row and its place.

/// One refusal: the row's number and the place the row names.
#[derive(Clone, Copy, Debug, PartialEq, Eq)]
pub struct Refusal {
    pub number: u8,
    pub place: usize,
}

impl Refusal {
    pub(crate) fn new(number: u8, place: usize) -> Refusal {
        Refusal { number, place }
    }
}

pub const LINE_TOO_LONG: u8 = 1;
pub const BYTE_NOT_PRINTABLE: u8 = 2;
pub const GRAVE_AT_END: u8 = 3;
pub const QUOTE_LEFT_OPEN: u8 = 4;
pub const TOO_MANY_TERMS: u8 = 5;
pub const NO_SUCH_VERB: u8 = 6;
pub const NO_SUCH_OPTION: u8 = 7;
pub const OPTION_REPEATED: u8 = 8;
pub const ARGUMENT_MISSING: u8 = 9;
pub const ARGUMENT_MALFORMED: u8 = 10;
pub const OPTION_TOO_LATE: u8 = 11;
pub const TARGET_MALFORMED: u8 = 12;
pub const PROPERTY_MALFORMED: u8 = 13;
pub const TOO_MANY_PROPERTIES: u8 = 14;
pub const TREE_MALFORMED: u8 = 15;
pub const NO_SUCH_NODE: u8 = 16;
pub const ABOVE_THE_ROOT: u8 = 17;
pub const NO_SUCH_CHILD: u8 = 18;
pub const NO_ROOM: u8 = 19;
/// Document 02's request b; after 7 and before 8.
pub const NOT_FOR_VERB: u8 = 20;
/// Document 02's request e, 21 to 25; the first in reading order, 19 last.
pub const REPLY_LINE_MALFORMED: u8 = 21;
pub const NO_GROUP_TO_END: u8 = 22;
pub const GROUPS_TOO_DEEP: u8 = 23;
pub const GROUP_LEFT_OPEN: u8 = 24;
pub const NO_END_OF_OUTPUT: u8 = 25;

/// Refusal 19, whose place is always 0.
pub(crate) const ROOM_TOO_SMALL: Refusal = Refusal {
    number: NO_ROOM,
    place: 0,
};
