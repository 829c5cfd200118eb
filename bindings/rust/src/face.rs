//! The C face of the library (clp.h) as safe Rust: a function for each of its functions, with plain answers, and its constants.
//!
//! The rest of the crate is made of these. They are for whoever wants the records, the joiner's state or the line buffer in hands of his own.
//!
//! One convention holds for all answers but [`Part`]: where `number` is 0 the call succeeded, and `value` is what the function says; otherwise the call is
//! refused, `number` is one of the `REFUSED_` constants, and `value` is its place. On a refusal nothing that was lent has changed (the line buffer apart,
//! where a line was too long). What is written fills the start of the lent room and leaves its rest as it was.

mod constants;
mod raw;

pub use constants::*;

/// What most functions answer: number 0 and a value, or a refusal's number and its place.
#[repr(C)]
#[derive(Clone, Copy, Debug, PartialEq, Eq)]
pub struct Answer {
    /// 0, or the number of the refusal.
    pub number: u64,
    /// The answer, or the place of the refusal.
    pub value: u64,
}

/// What joining answers: how many bytes were used, and the state for the next call, too.
#[repr(C)]
#[derive(Clone, Copy, Debug, PartialEq, Eq)]
pub struct Joined {
    /// 0, or the number of the refusal.
    pub number: u64,
    /// The answer, or the place of the refusal.
    pub value: u64,
    /// How many bytes of the part were used.
    pub used: u64,
    /// The joiner's state, for the next call.
    pub state: u64,
}

/// A term: where it begins and how many bytes it has.
#[repr(C)]
#[derive(Clone, Copy, Debug, PartialEq, Eq)]
pub struct Term {
    /// 0, or the number of the refusal.
    pub number: u64,
    /// Where the term begins, or [`NONE`], or the place of the refusal.
    pub value: u64,
    /// How many bytes the term has.
    pub length: u64,
}

/// A part of a line. It is no answer: it has no number.
#[repr(C)]
#[derive(Clone, Copy, Debug, PartialEq, Eq)]
pub struct Part {
    /// Where it begins.
    pub position: u64,
    /// How many bytes it has.
    pub length: u64,
}

// Why the calls below are safe. For every input the library reads and writes nothing but what is lent and its own stack (proved), and keeps no pointer; any
// bytes and any numbers are accepted. What the caller owes by clp.h, a reference gives by itself: behind a slice's pointer there are as many elements as its
// length says, aligned; nobody writes them during the call; and what is lent as `&mut` overlaps nothing else. Of a slice without elements any pointer will
// do. The stack, of which STACK_BYTES or STACK_PATH_BYTES are used, is the thread's, as with every function.

// ---- From bytes to lines
// SAFETY: as above; the buffer is written, and is the caller's alone by `&mut`. `clp_end` is lent nothing.

/// Joins a part of a capture: uses its bytes up to and including the one that ends a line, or all of them. The value is the length of the line that now stands
/// at the buffer's start, or [`NONE`]. The state is 0 before a capture's first byte; the buffer has [`LINE_BYTES`], and is kept from call to call.
///
/// ```
/// use smclp::face::{join, Joined, LINE_BYTES, NONE};
///
/// let mut buffer = [0; LINE_BYTES];
/// let joined = join(0, &mut buffer, b"sh");
/// assert_eq!(joined, Joined { number: 0, value: NONE, used: 2, state: 2 });
/// let joined = join(joined.state, &mut buffer, b"ow\ncd");
/// assert_eq!((joined.value, joined.used), (4, 3));
/// assert_eq!(&buffer[..4], b"show");
/// ```
pub fn join(state: u64, buffer: &mut [u8], part: &[u8]) -> Joined {
    let (b, p) = (buffer.as_mut_ptr(), part.as_ptr());
    unsafe { raw::clp_join(state, b, buffer.len(), p, part.len()) }
}

/// The end of a capture: value 1 where it cuts a line, 0 where nothing was open.
///
/// ```
/// use smclp::face::{end, Answer};
///
/// assert_eq!(end(0), Answer { number: 0, value: 0 });
/// assert_eq!(end(2), Answer { number: 0, value: 1 });
/// ```
pub fn end(state: u64) -> Answer {
    unsafe { raw::clp_end(state) }
}

// ---- Reading a line
// SAFETY: as above; the line or text is read, and of what is lent the room alone is written, which is the caller's alone by `&mut`.

/// Writes a line's records; the value is how many bytes, at most [`READING_BYTES`].
///
/// ```
/// use smclp::face::{read, Answer, KIND_VERB, READING_BYTES, REFUSED_QUOTE, VERB_CD};
///
/// let mut room = [0; READING_BYTES];
/// assert_eq!(read(b"cd", &mut room), Answer { number: 0, value: 2 });
/// assert_eq!(room[..2], [KIND_VERB, VERB_CD]);
/// assert_eq!(read(b"reset \"os1", &mut room), Answer { number: REFUSED_QUOTE, value: 6 });
/// ```
pub fn read(line: &[u8], room: &mut [u8]) -> Answer {
    unsafe { raw::clp_read(line.as_ptr(), line.len(), room.as_mut_ptr(), room.len()) }
}

/// The target's own part of a line: its position and length, both 0 where there is none or the line is refused.
///
/// ```
/// use smclp::face::{target, Part};
///
/// assert_eq!(target(b"cd /system1"), Part { position: 3, length: 8 });
/// assert_eq!(target(b"cd"), Part { position: 0, length: 0 });
/// ```
pub fn target(line: &[u8]) -> Part {
    unsafe { raw::clp_target(line.as_ptr(), line.len()) }
}

/// The term at or after a place: the value is where it begins, or [`NONE`] with length 0. On a line that refusals 1 to 5 hold of, that refusal, from every
/// place. Each call judges the whole line anew.
///
/// ```
/// use smclp::face::{next_term, Term, NONE};
///
/// assert_eq!(next_term(b"cd /system1", 2), Term { number: 0, value: 3, length: 8 });
/// assert_eq!(next_term(b"cd /system1", 11), Term { number: 0, value: NONE, length: 0 });
/// ```
pub fn next_term(line: &[u8], place: usize) -> Term {
    unsafe { raw::clp_next_term(line.as_ptr(), line.len(), place) }
}

/// Writes a line canonically; the value is how many bytes, at most [`CANONICAL_BYTES`].
///
/// ```
/// use smclp::face::{canonical, Answer, CANONICAL_BYTES};
///
/// let mut room = [0; CANONICAL_BYTES];
/// assert_eq!(canonical(b"SHOW  -l 2", &mut room), Answer { number: 0, value: 13 });
/// assert_eq!(&room[..13], b"show -level 2");
/// ```
pub fn canonical(line: &[u8], room: &mut [u8]) -> Answer {
    unsafe { raw::clp_canonical(line.as_ptr(), line.len(), room.as_mut_ptr(), room.len()) }
}

/// Writes the bytes that a text stands for; the value is how many bytes, at most as many as the text has.
///
/// ```
/// use smclp::face::{meant, Answer};
///
/// let mut room = [0; 5];
/// assert_eq!(meant(b"\"a b\"", &mut room), Answer { number: 0, value: 3 });
/// assert_eq!(&room[..3], b"a b");
/// ```
pub fn meant(text: &[u8], room: &mut [u8]) -> Answer {
    unsafe { raw::clp_meant(text.as_ptr(), text.len(), room.as_mut_ptr(), room.len()) }
}

// ---- The tree
// SAFETY: as above; text and tree are read. The room or the list is written: the caller's alone by `&mut`, and a `u16` is aligned as C asks.

/// Checks a tree: value 0 where it is good.
///
/// ```
/// use smclp::face::{check_tree, Answer, REFUSED_TREE};
///
/// assert_eq!(check_tree(&[]), Answer { number: 0, value: 0 });
/// assert_eq!(check_tree(b"no tree"), Answer { number: REFUSED_TREE, value: 0 });
/// ```
pub fn check_tree(tree: &[u8]) -> Answer {
    unsafe { raw::clp_check_tree(tree.as_ptr(), tree.len()) }
}

/// The instances that a target's text addresses from a default target, a node's number: the value is how many numbers of nodes now stand at the list's start,
/// or [`SESSION`].
///
/// ```
/// use smclp::face::{resolve, Answer, REFUSED_CHILD, SESSION, TREE_NODES};
///
/// let mut list = [9; TREE_NODES];
/// assert_eq!(resolve(b"/", &[], 0, &mut list), Answer { number: 0, value: 1 });
/// assert_eq!(list[..2], [0, 9]);
/// assert_eq!(resolve(b"SESSION", &[], 0, &mut list), Answer { number: 0, value: SESSION });
/// assert_eq!(resolve(b"/cpu1", &[], 0, &mut list), Answer { number: REFUSED_CHILD, value: 1 });
/// ```
pub fn resolve(text: &[u8], tree: &[u8], default_target: usize, list: &mut [u16]) -> Answer {
    let (t, r, l) = (text.as_ptr(), tree.as_ptr(), list.as_mut_ptr());
    unsafe { raw::clp_resolve(t, text.len(), r, tree.len(), default_target, l, list.len()) }
}

/// Writes the full path of a node; the value is how many bytes, at most [`PATH_BYTES`]. It takes up to [`STACK_PATH_BYTES`] of stack.
///
/// ```
/// use smclp::face::{full_path, Answer, REFUSED_NODE};
///
/// let mut room = [0; 1];
/// assert_eq!(full_path(&[], 0, &mut room), Answer { number: 0, value: 1 });
/// assert_eq!(&room, b"/");
/// assert_eq!(full_path(&[], 1, &mut room), Answer { number: REFUSED_NODE, value: 0 });
/// ```
pub fn full_path(tree: &[u8], node: usize, room: &mut [u8]) -> Answer {
    let (t, r) = (tree.as_ptr(), room.as_mut_ptr());
    unsafe { raw::clp_full_path(t, tree.len(), node, r, room.len()) }
}

// ---- A lister
// SAFETY: as above; buffer and room are written, two `&mut`, so that neither overlaps the other, the part or the records.

/// Joins a part and reads the line that it ended: the value is how many bytes of records now stand at the room's start (a refused line as a record of
/// [`KIND_REFUSAL`]), or [`NONE`]. The room has at least [`READING_BYTES`].
///
/// ```
/// use smclp::face::{list, KIND_REFUSAL, LINE_BYTES, READING_BYTES};
///
/// let (mut buffer, mut room) = ([0; LINE_BYTES], [0; READING_BYTES]);
/// let joined = list(0, &mut buffer, b"reset \"os1\n", &mut room);
/// assert_eq!((joined.number, joined.value, joined.used), (0, 4, 11));
/// assert_eq!(room[..4], [KIND_REFUSAL, 4, 0, 6]);
/// ```
pub fn list(state: u64, buffer: &mut [u8], part: &[u8], room: &mut [u8]) -> Joined {
    let (b, p, r) = (buffer.as_mut_ptr(), part.as_ptr(), room.as_mut_ptr());
    unsafe { raw::clp_list(state, b, buffer.len(), p, part.len(), r, room.len()) }
}

/// The end of a capture as a record: the value is 1, a cut's record, or 0, which needs no room.
///
/// ```
/// use smclp::face::{list_end, Answer, KIND_CUT};
///
/// let mut room = [0; 1];
/// assert_eq!(list_end(2, &mut room), Answer { number: 0, value: 1 });
/// assert_eq!(room, [KIND_CUT]);
/// ```
pub fn list_end(state: u64, room: &mut [u8]) -> Answer {
    unsafe { raw::clp_list_end(state, room.as_mut_ptr(), room.len()) }
}

/// Writes records as text, a line for each; the value is how many bytes, at most 6 for each byte of records.
///
/// ```
/// use smclp::face::{records_text, Answer, KIND_REFUSAL};
///
/// let mut room = [0; 24];
/// assert_eq!(records_text(&[KIND_REFUSAL, 4, 0, 6], &mut room), Answer { number: 0, value: 12 });
/// assert_eq!(&room[..12], b"refusal 4 6\n");
/// ```
pub fn records_text(records: &[u8], room: &mut [u8]) -> Answer {
    let (s, r) = (records.as_ptr(), room.as_mut_ptr());
    unsafe { raw::clp_records_text(s, records.len(), r, room.len()) }
}

// ---- Replies
// SAFETY: as above; reply, records, text and value are read, and the room alone is written, which is the caller's alone by `&mut`.

/// Reads a board's reply: writes its records; the value is how many bytes, at most [`REPLY_RECORDS_BYTES`]. A value is told as the reply has it, quotes and
/// backticks included.
///
/// ```
/// use smclp::face::{read_reply, Answer, KIND_END_OUTPUT, KIND_ITEM, REFUSED_GROUP_END};
///
/// let mut room = [0; 10];
/// assert_eq!(read_reply(b"status=0\nendoutput\n", &mut room), Answer { number: 0, value: 10 });
/// assert_eq!(room, [KIND_ITEM, 0, 0, 0, 6, 0, 7, 0, 1, KIND_END_OUTPUT]);
/// assert_eq!(read_reply(b"status=0\nendgroup\n", &mut room), Answer { number: REFUSED_GROUP_END, value: 9 });
/// ```
pub fn read_reply(reply: &[u8], room: &mut [u8]) -> Answer {
    let (s, r) = (reply.as_ptr(), room.as_mut_ptr());
    unsafe { raw::clp_read_reply(s, reply.len(), r, room.len()) }
}

/// Writes the reply that records name in a text, up to and with the first of [`KIND_END_OUTPUT`]; the value is how many bytes, at most [`REPLY_BYTES`]. A
/// value is plain bytes: what [`read_reply`] tells goes through [`reply_value`] first.
///
/// ```
/// use smclp::face::{write_reply, Answer, KIND_END_OUTPUT, KIND_ITEM, REFUSED_NO_END};
///
/// let mut room = [0; 19];
/// let records = [KIND_ITEM, 0, 0, 0, 6, 0, 6, 0, 1, KIND_END_OUTPUT];
/// assert_eq!(write_reply(&records, b"status0", &mut room), Answer { number: 0, value: 19 });
/// assert_eq!(&room, b"status=0\nendoutput\n");
/// assert_eq!(write_reply(&records[..9], b"status0", &mut room), Answer { number: REFUSED_NO_END, value: 9 });
/// ```
pub fn write_reply(records: &[u8], text: &[u8], room: &mut [u8]) -> Answer {
    let (s, t, r) = (records.as_ptr(), text.as_ptr(), room.as_mut_ptr());
    unsafe { raw::clp_write_reply(s, records.len(), t, text.len(), r, room.len()) }
}

/// Writes the bytes that a value of a reply stands for: a quoted one without its quotes and the backticks that escape, any other as it is. The value is how many
/// bytes, at most as many as there are.
///
/// ```
/// use smclp::face::{reply_value, Answer, REFUSED_REPLY_LINE};
///
/// let mut room = [0; 3];
/// assert_eq!(reply_value(b"\"a`\"b\"", &mut room), Answer { number: 0, value: 3 });
/// assert_eq!(&room, b"a\"b");
/// assert_eq!(reply_value(b"\"a", &mut room), Answer { number: REFUSED_REPLY_LINE, value: 0 });
/// ```
pub fn reply_value(raw: &[u8], room: &mut [u8]) -> Answer {
    let (s, r) = (raw.as_ptr(), room.as_mut_ptr());
    unsafe { raw::clp_reply_value(s, raw.len(), r, room.len()) }
}
