//! "The tree": its check, the nodes that a target addresses, and a node's full path.

use crate::beginning::longest_beginning;
use crate::form::Form;
use crate::path::{is_rooted, segments, Segment, SESSION};
use crate::refusal::{
    Refusal, ABOVE_THE_ROOT, NO_SUCH_CHILD, NO_SUCH_NODE, ROOM_TOO_SMALL, TARGET_MALFORMED,
    TREE_MALFORMED,
};

/// The bytes of a node's record: its kind and a body of 21.
pub const RECORD_BYTES: usize = 22;

/// The most records of a tree.
pub const MOST_RECORDS: usize = 512;

const NODE_KIND: u8 = 16;
const TAG_ROOM: usize = 16;
const ROOT: usize = 0;

type Record = [u8; RECORD_BYTES];

/// What a target addresses.
#[derive(Clone, Copy, Debug, PartialEq, Eq)]
pub enum Resolved {
    /// So many node numbers stand at the start of the lent list.
    Nodes(usize),
    /// `SESSION`: no node, and no number.
    Session,
}

/// Checks a tree, and gives its number of records.
pub fn check_tree(tree: &[u8]) -> Result<usize, Refusal> {
    let mut earlier = EarlierRecords::new(tree);
    for (index, bytes) in tree.chunks(RECORD_BYTES).enumerate() {
        let is_good = match bytes.try_into() {
            Ok(record) => is_good_record(record, index) && earlier.insert(record, index),
            Err(_) => false,
        };
        if !is_good {
            return Err(Refusal::new(TREE_MALFORMED, index * RECORD_BYTES));
        }
    }
    Ok(tree.len() / RECORD_BYTES)
}

/// Whether the record at `index`, which is node `index + 1`, is good by itself.
fn is_good_record(record: &Record, index: usize) -> bool {
    let tag_length = usize::from(record[3]);
    let tag_room: &[u8] = &record[4..20];
    record[0] == NODE_KIND
        && index < MOST_RECORDS
        && parent_of(record) <= index
        && (1..=TAG_ROOM).contains(&tag_length)
        && tag_room[..tag_length].iter().all(u8::is_ascii_alphabetic)
        && tag_room[tag_length..].iter().all(|&byte| byte == 0)
        && number_of(record) > 0
}

fn parent_of(record: &Record) -> usize {
    usize::from(u16::from_be_bytes([record[1], record[2]]))
}

fn tag_of(record: &Record) -> &[u8] {
    &record[4..][..usize::from(record[3]).min(TAG_ROOM)]
}

fn number_of(record: &Record) -> u16 {
    u16::from_be_bytes([record[20], record[21]])
}

/// The records passed so far, found again by a hash of their bodies.
struct EarlierRecords<'t> {
    tree: &'t [u8],
    /// Node numbers, 0 for a free slot; twice the most records, so that a free one is near.
    slots: [u16; 2 * MOST_RECORDS],
}

impl<'t> EarlierRecords<'t> {
    fn new(tree: &'t [u8]) -> EarlierRecords<'t> {
        EarlierRecords {
            tree,
            slots: [0; 2 * MOST_RECORDS],
        }
    }

    /// Takes in the good record at `index`; false where an earlier one is its twin.
    fn insert(&mut self, record: &Record, index: usize) -> bool {
        let mut slot = hash_of(record);
        loop {
            let taken_by = usize::from(self.slots[slot]);
            if taken_by == 0 {
                self.slots[slot] = index as u16 + 1;
                return true;
            }
            if record_of(self.tree, taken_by) == Some(record) {
                return false;
            }
            slot = (slot + 1) % self.slots.len();
        }
    }
}

/// Good records are equal exactly when parent, tag and number are, so all bytes are mixed.
fn hash_of(record: &Record) -> usize {
    const ODD: u64 = 0x9e37_79b9_7f4a_7c15;
    let word = |at: usize| {
        let mut eight = [0; 8];
        eight.copy_from_slice(&record[at..at + 8]);
        u64::from_le_bytes(eight)
    };
    let mixed = [word(1), word(9), word(14)]
        .iter()
        .fold(0u64, |hash, &word| {
            (hash.rotate_left(23) ^ word).wrapping_mul(ODD)
        });
    (mixed >> 54) as usize
}

/// The record of a node other than the root.
fn record_of(tree: &[u8], node: usize) -> Option<&Record> {
    let start = node.checked_sub(1)?.checked_mul(RECORD_BYTES)?;
    tree.get(start..)?.first_chunk()
}

/// The parent of a node, none for the root.
fn parent_node(tree: &[u8], node: usize) -> Option<usize> {
    record_of(tree, node).map(parent_of)
}

/// The children of `parent` with that tag as node and number, in record order.
fn children<'t>(
    tree: &'t [u8],
    parent: usize,
    tag: &'t [u8],
) -> impl Iterator<Item = (usize, u16)> + 't {
    // A child's number is above its parent's, so earlier records need no look.
    tree.chunks_exact(RECORD_BYTES)
        .enumerate()
        .skip(parent)
        .filter_map(|(index, bytes)| Some((index + 1, bytes.first_chunk()?)))
        .filter(move |(_, record)| parent_of(record) == parent && tag_of(record) == tag)
        .map(|(node, record)| (node, number_of(record)))
}

/// Resolves a target's text in the tree, into a lent list of node numbers.
pub fn resolve(
    text: &[u8],
    tree: &[u8],
    default_target: usize,
    list: &mut [u16],
) -> Result<Resolved, Refusal> {
    if !text.is_empty() && !Form::Target.accepts(text) {
        let can_stay = longest_beginning(Form::Target, text);
        return Err(Refusal::new(TARGET_MALFORMED, can_stay));
    }
    let count = check_tree(tree)?;
    if default_target > count {
        return Err(Refusal::new(NO_SUCH_NODE, 0));
    }
    if text == SESSION {
        return Ok(Resolved::Session);
    }
    walk(text, tree, default_target, list)
}

/// Goes along a path of good form in a good tree.
fn walk(
    path: &[u8],
    tree: &[u8],
    default_target: usize,
    list: &mut [u16],
) -> Result<Resolved, Refusal> {
    let mut node = if is_rooted(path) {
        ROOT
    } else {
        default_target
    };
    for (place, segment) in segments(path) {
        let no_such_child = Refusal::new(NO_SUCH_CHILD, place);
        node = match segment.ok_or(Refusal::new(TARGET_MALFORMED, 0))? {
            Segment::Here => node,
            Segment::Up => parent_node(tree, node).ok_or(Refusal::new(ABOVE_THE_ROOT, place))?,
            Segment::Child { tag, number } => {
                children(tree, node, tag)
                    .find(|&(_, of_child)| of_child == number)
                    .ok_or(no_such_child)?
                    .0
            }
            // A starred tag is the last segment.
            Segment::EveryChild { tag } => {
                let nodes = children(tree, node, tag).map(|(child, _)| child as u16);
                return match fill_list(nodes, list) {
                    Ok(0) => Err(no_such_child),
                    filled => filled.map(Resolved::Nodes),
                };
            }
        };
    }
    *list.first_mut().ok_or(ROOM_TOO_SMALL)? = node as u16;
    Ok(Resolved::Nodes(1))
}

/// Puts all nodes at the list's start, or none of them where the list is too short.
fn fill_list(nodes: impl Iterator<Item = u16>, list: &mut [u16]) -> Result<usize, Refusal> {
    let mut found = [0; MOST_RECORDS];
    let mut count = 0;
    for (slot, node) in found.iter_mut().zip(nodes) {
        *slot = node;
        count += 1;
    }
    let answer = list.get_mut(..count).ok_or(ROOM_TOO_SMALL)?;
    answer.copy_from_slice(&found[..count]);
    Ok(count)
}

/// Writes the node's full path at the start of lent room, and tells its length.
pub fn full_path(tree: &[u8], node: usize, room: &mut [u8]) -> Result<usize, Refusal> {
    let count = check_tree(tree)?;
    if node > count {
        return Err(Refusal::new(NO_SUCH_NODE, 0));
    }
    if node == ROOT {
        *room.first_mut().ok_or(ROOM_TOO_SMALL)? = b'/';
        return Ok(1);
    }
    let length = way_up(tree, node).map(segment_length).sum();
    let answer = room.get_mut(..length).ok_or(ROOM_TOO_SMALL)?;
    let mut end = length;
    for record in way_up(tree, node) {
        put_segment_before(record, answer, &mut end);
    }
    Ok(length)
}

/// The records from the node up to the root's child; the number falls with each.
fn way_up(tree: &[u8], node: usize) -> impl Iterator<Item = &Record> {
    std::iter::successors(record_of(tree, node), |record| {
        record_of(tree, parent_of(record))
    })
}

/// A separator, the tag, and the number's digits.
fn segment_length(record: &Record) -> usize {
    1 + tag_of(record).len() + number_of(record).ilog10() as usize + 1
}

/// Writes one segment so that it ends at `end`, and moves `end` to its start.
fn put_segment_before(record: &Record, room: &mut [u8], end: &mut usize) {
    let mut left = number_of(record);
    while left > 0 {
        *end -= 1;
        room[*end] = b'0' + (left % 10) as u8;
        left /= 10;
    }
    let tag = tag_of(record);
    *end -= tag.len();
    room[*end..][..tag.len()].copy_from_slice(tag);
    *end -= 1;
    room[*end] = b'/';
}
