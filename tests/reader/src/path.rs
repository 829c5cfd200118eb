//! The form of a target: `SESSION`, or a path of at most 16 segments.

use crate::bytes::decimal;

const MOST_SEGMENTS: usize = 16;
const MOST_TAG_BYTES: usize = 16;
const MOST_NUMBER: u32 = 65_535;

pub const SESSION: &[u8] = b"SESSION";

/// One segment of a path.
#[derive(Clone, Copy, Debug, PartialEq, Eq)]
pub enum Segment<'p> {
    /// `.`: the node itself.
    Here,
    /// `..`: the node's parent.
    Up,
    /// A tag with a number: one child.
    Child { tag: &'p [u8], number: u16 },
    /// A tag with `*`: all children with that tag.
    EveryChild { tag: &'p [u8] },
}

pub fn is_separator(byte: u8) -> bool {
    byte == b'/' || byte == b'\\'
}

pub fn is_rooted(path: &[u8]) -> bool {
    path.first().is_some_and(|&byte| is_separator(byte))
}

/// Whether `text` is of a target's form.
pub fn is_target(text: &[u8]) -> bool {
    text == SESSION || is_path(text)
}

/// Whether `text` is a path; only its last segment may be starred.
fn is_path(text: &[u8]) -> bool {
    let mut count = 0;
    let mut starred = false;
    for (_, segment) in segments(text) {
        count += 1;
        if starred || count > MOST_SEGMENTS || segment.is_none() {
            return false;
        }
        starred = matches!(segment, Some(Segment::EveryChild { .. }));
    }
    count > 0 || is_rooted(text)
}

/// The path's segments with the place where each begins; `None` stands for one of no form.
pub fn segments(path: &[u8]) -> Segments<'_> {
    let place = usize::from(is_rooted(path));
    Segments {
        path,
        next: (place < path.len()).then_some(place),
    }
}

pub struct Segments<'p> {
    path: &'p [u8],
    next: Option<usize>,
}

impl<'p> Iterator for Segments<'p> {
    type Item = (usize, Option<Segment<'p>>);

    fn next(&mut self) -> Option<Self::Item> {
        let start = self.next?;
        let rest = &self.path[start..];
        let separator = rest.iter().position(|&byte| is_separator(byte));
        self.next = separator.map(|at| start + at + 1);
        let text = &rest[..separator.unwrap_or(rest.len())];
        Some((start, segment_of(text)))
    }
}

/// The segment that `text` is, if it is of a segment's form.
fn segment_of(text: &[u8]) -> Option<Segment<'_>> {
    match text {
        b"." => return Some(Segment::Here),
        b".." => return Some(Segment::Up),
        _ => {}
    }
    let letters = text.iter().take_while(|byte| byte.is_ascii_alphabetic());
    let (tag, ending) = text.split_at(letters.count());
    if !(1..=MOST_TAG_BYTES).contains(&tag.len()) {
        return None;
    }
    if ending == b"*" {
        return Some(Segment::EveryChild { tag });
    }
    let number = decimal(ending, MOST_NUMBER)? as u16;
    (number > 0).then_some(Segment::Child { tag, number })
}
