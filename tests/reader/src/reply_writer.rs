//! "Board replies, keyword form" (request e of document 02), writing: the reply that records over
//! a text stand for.

use crate::bytes::LF;
use crate::refusal::{Refusal, NO_END_OF_OUTPUT, REPLY_LINE_MALFORMED, ROOM_TOO_SMALL};
use crate::reply::{OpenGroups, BEGIN_GROUP, END_GROUP, END_OUTPUT, MOST_REPLY_BYTES};
use crate::reply_records::{decode, reply_records, ReplyRecord};
use crate::reply_value::put_value;
use crate::sink::{Count, Fill, Sink};
use crate::vocabulary::name_length;

/// Writes the reply of records over a text into lent room, and tells how many bytes it has.
pub fn write_reply(records: &[u8], text: &[u8], room: &mut [u8]) -> Result<usize, Refusal> {
    let too_long = Refusal::new(REPLY_LINE_MALFORMED, 0);
    if text.len() > MOST_REPLY_BYTES {
        return Err(too_long);
    }
    let needed = needed_bytes(records, text)?;
    if needed > MOST_REPLY_BYTES {
        return Err(too_long);
    }
    let answer = room.get_mut(..needed).ok_or(ROOM_TOO_SMALL)?;
    let mut fill = Fill::new(answer);
    for record in reply_records(records) {
        put_line(record, text, &mut fill);
    }
    Ok(needed)
}

/// Judges record by record up to the one that ends the output, and counts the bytes of their
/// lines. What is over 65,535 is not counted on: many records may name one long value.
fn needed_bytes(records: &[u8], text: &[u8]) -> Result<usize, Refusal> {
    let mut groups = OpenGroups::default();
    let mut needed = Count::default();
    let mut place = 0;
    loop {
        let rest = &records[place..];
        if rest.is_empty() {
            return Err(Refusal::new(NO_END_OF_OUTPUT, place));
        }
        let malformed = Refusal::new(REPLY_LINE_MALFORMED, place);
        let (record, length) = decode(rest).ok_or(malformed)?;
        if !is_good(record, text) {
            return Err(malformed);
        }
        match record {
            ReplyRecord::Item { .. } => {}
            ReplyRecord::Group { .. } => groups.open(place)?,
            ReplyRecord::EndGroup => groups.end(place)?,
            ReplyRecord::EndOutput => groups.end_output(place)?,
        }
        if needed.0 <= MOST_REPLY_BYTES {
            put_line(record, text, &mut needed);
        }
        if record == ReplyRecord::EndOutput {
            return Ok(needed.0);
        }
        place += length;
    }
}

/// Whether the record's parts lie in the text, and its line would be read as such a record.
fn is_good(record: ReplyRecord, text: &[u8]) -> bool {
    match record {
        ReplyRecord::Item { keyword, value } => {
            let is_value = value.lying_in(text).is_some();
            is_value && keyword.lying_in(text).is_some_and(is_keyword)
        }
        ReplyRecord::Group { type_name } => type_name.lying_in(text).is_some_and(is_name),
        ReplyRecord::EndGroup | ReplyRecord::EndOutput => true,
    }
}

fn is_name(word: &[u8]) -> bool {
    name_length(word) == Some(word.len())
}

fn is_keyword(word: &[u8]) -> bool {
    is_name(word) && ![BEGIN_GROUP, END_GROUP, END_OUTPUT].contains(&word)
}

/// The record's line, ended by LF.
fn put_line(record: ReplyRecord, text: &[u8], sink: &mut impl Sink) {
    match record {
        ReplyRecord::Item { keyword, value } => {
            sink.put_all(keyword.of(text));
            sink.put(b'=');
            put_value(value.of(text), sink);
        }
        ReplyRecord::Group { type_name } => {
            sink.put_all(BEGIN_GROUP);
            sink.put(b'=');
            sink.put_all(type_name.of(text));
        }
        ReplyRecord::EndGroup => sink.put_all(END_GROUP),
        ReplyRecord::EndOutput => sink.put_all(END_OUTPUT),
    }
    sink.put(LF);
}
