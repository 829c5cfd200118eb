//! "Board replies, keyword form" (request e of document 02), reading: each line that means
//! something gives a record that points into the reply.

use crate::bytes::{CR, LF};
use crate::refusal::{
    Refusal, GROUPS_TOO_DEEP, GROUP_LEFT_OPEN, NO_END_OF_OUTPUT, NO_GROUP_TO_END,
    REPLY_LINE_MALFORMED, ROOM_TOO_SMALL,
};
use crate::reply_records::{put_record, ReplyRecord};
use crate::sink::{Count, Fill, Sink};
use crate::value::quoted_length;
use crate::vocabulary::name_length;
use crate::Part;

/// The most bytes of a reply, and of a text that records point into.
pub const MOST_REPLY_BYTES: usize = 65_535;

/// The most groups that are open at once.
const MOST_OPEN_GROUPS: usize = 8;

pub(crate) const BEGIN_GROUP: &[u8] = b"begingroup";
pub(crate) const END_GROUP: &[u8] = b"endgroup";
pub(crate) const END_OUTPUT: &[u8] = b"endoutput";

/// Writes the records of a reply at the start of lent room, and tells how many bytes they are.
pub fn read_reply(text: &[u8], room: &mut [u8]) -> Result<usize, Refusal> {
    let mut needed = Count::default();
    put_records(text, &mut needed)?;
    let answer = room.get_mut(..needed.0).ok_or(ROOM_TOO_SMALL)?;
    put_records(text, &mut Fill::new(answer))?;
    Ok(needed.0)
}

/// All records of the reply, from line to line, up to the one that ends the output.
fn put_records(text: &[u8], sink: &mut impl Sink) -> Result<(), Refusal> {
    if text.len() > MOST_REPLY_BYTES {
        return Err(Refusal::new(REPLY_LINE_MALFORMED, 0));
    }
    let mut lines = Lines::new(text);
    loop {
        let record = lines.next_record()?;
        put_record(record, sink);
        if record == ReplyRecord::EndOutput {
            return Ok(());
        }
    }
}

/// A reply's lines: the place of the next one, and the groups that are open there.
struct Lines<'t> {
    text: &'t [u8],
    place: usize,
    groups: OpenGroups,
}

impl<'t> Lines<'t> {
    fn new(text: &'t [u8]) -> Lines<'t> {
        Lines {
            text,
            place: 0,
            groups: OpenGroups::default(),
        }
    }

    /// The record of the next line that means something; the place goes to that line's end.
    #[inline]
    fn next_record(&mut self) -> Result<ReplyRecord, Refusal> {
        loop {
            match self.text.get(self.place) {
                None => return Err(Refusal::new(NO_END_OF_OUTPUT, self.text.len())),
                // The end of the line before, or an empty line: either way nothing follows from it.
                Some(&(CR | LF)) => self.place += 1,
                Some(b'#') => self.place += plain_length(&self.text[self.place..]),
                Some(_) => return self.record(),
            }
        }
    }

    /// The record of the line that begins at the place.
    #[inline]
    fn record(&mut self) -> Result<ReplyRecord, Refusal> {
        let start = self.place;
        let line = &self.text[start..];
        let malformed = Refusal::new(REPLY_LINE_MALFORMED, start);
        let name = name_length(line).ok_or(malformed)?;
        self.place = start + name;
        match (&line[..name], line.get(name)) {
            (BEGIN_GROUP, Some(b'=')) => self.group(start),
            (END_GROUP | END_OUTPUT, Some(b'=')) => Err(malformed),
            (_, Some(b'=')) => self.item(start),
            (END_GROUP, None | Some(&(CR | LF))) => {
                self.groups.end(start)?;
                Ok(ReplyRecord::EndGroup)
            }
            (END_OUTPUT, None | Some(&(CR | LF))) => {
                self.groups.end_output(start)?;
                Ok(ReplyRecord::EndOutput)
            }
            _ => Err(malformed),
        }
    }

    /// A group's record; the place is at the `=`, and the rest of the line is the type.
    fn group(&mut self, start: usize) -> Result<ReplyRecord, Refusal> {
        let malformed = Refusal::new(REPLY_LINE_MALFORMED, start);
        let type_start = self.place + 1;
        let length = name_length(&self.text[type_start..]).ok_or(malformed)?;
        self.place = type_start + length;
        if !self.is_line_end() {
            return Err(malformed);
        }
        self.groups.open(start)?;
        let type_name = Part::between(type_start, self.place);
        Ok(ReplyRecord::Group { type_name })
    }

    /// An item's record; the place is at the `=`, and a quoted value may hold ends of line.
    #[inline]
    fn item(&mut self, start: usize) -> Result<ReplyRecord, Refusal> {
        let keyword = Part::between(start, self.place);
        let value_start = self.place + 1;
        let rest = &self.text[value_start..];
        if rest.first() == Some(&b'"') {
            let never_closed = Refusal::new(NO_END_OF_OUTPUT, self.text.len());
            self.place = value_start + quoted_length(rest).ok_or(never_closed)?;
            if !self.is_line_end() {
                return Err(Refusal::new(REPLY_LINE_MALFORMED, start));
            }
        } else {
            self.place = value_start + plain_length(rest);
        }
        let value = Part::between(value_start, self.place);
        Ok(ReplyRecord::Item { keyword, value })
    }

    fn is_line_end(&self) -> bool {
        matches!(self.text.get(self.place), None | Some(&(CR | LF)))
    }
}

/// How many bytes stand before the line's end.
#[inline]
fn plain_length(text: &[u8]) -> usize {
    let is_end = |&byte: &u8| matches!(byte, CR | LF);
    text.iter().position(is_end).unwrap_or(text.len())
}

/// How many groups are open; refusals are given the place of the line or record in hand.
#[derive(Default)]
pub(crate) struct OpenGroups(usize);

impl OpenGroups {
    pub(crate) fn open(&mut self, place: usize) -> Result<(), Refusal> {
        if self.0 == MOST_OPEN_GROUPS {
            return Err(Refusal::new(GROUPS_TOO_DEEP, place));
        }
        self.0 += 1;
        Ok(())
    }

    pub(crate) fn end(&mut self, place: usize) -> Result<(), Refusal> {
        let refusal = Refusal::new(NO_GROUP_TO_END, place);
        self.0 = self.0.checked_sub(1).ok_or(refusal)?;
        Ok(())
    }

    pub(crate) fn end_output(&self, place: usize) -> Result<(), Refusal> {
        match self.0 {
            0 => Ok(()),
            _ => Err(Refusal::new(GROUP_LEFT_OPEN, place)),
        }
    }
}
