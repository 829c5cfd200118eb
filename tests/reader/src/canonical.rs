//! "Canonical writing": the one way in which a command is written.

use crate::bytes::{is_word, lowered, GRAVE};
use crate::path::is_separator;
use crate::reading::gather;
use crate::records::{records, Gathered, Record};
use crate::refusal::{Refusal, ROOM_TOO_SMALL};
use crate::sink::{Count, Fill, Sink};
use crate::terms::stood_for;
use crate::value::{items, list_items, split_named_item};
use crate::vocabulary::{option_word, verb_word, DESTINATION, DISPLAY, LEVEL, OUTPUT, SOURCE};

/// No byte of a line leads to more than so many bytes of its writing.
const MOST_GROWTH: usize = 4;

/// Writes the line canonically at the start of lent room, and tells the writing's length.
pub fn write_canonical(line: &[u8], room: &mut [u8]) -> Result<usize, Refusal> {
    let mut gathered = Gathered::new();
    gather(line, &mut gathered)?;
    let records = gathered.as_bytes();
    // Ample room needs no count beforehand.
    if room.len() < line.len() * MOST_GROWTH {
        let mut needed = Count::default();
        put_command(line, records, &mut needed);
        if needed.0 > room.len() {
            return Err(ROOM_TOO_SMALL);
        }
    }
    let mut fill = Fill::new(room);
    put_command(line, records, &mut fill);
    Ok(fill.length)
}

/// Terms parted by one space, in the order of their records.
fn put_command(line: &[u8], bytes: &[u8], sink: &mut impl Sink) {
    for record in records(bytes) {
        match record {
            Record::Verb { number } => sink.put_all(verb_word(number)),
            Record::Option { number, argument } => {
                sink.put_all(b" -");
                sink.put_all(option_word(number));
                put_argument(number, argument.of(line), sink);
            }
            Record::Target { part } => {
                sink.put(b' ');
                put_path(part.of(line), sink);
            }
            Record::Property {
                name,
                operator,
                value,
            } => {
                sink.put(b' ');
                sink.put_all(name.of(line));
                // The operator's number is also its length.
                sink.put_all(&b"=="[..usize::from(operator.min(2))]);
                if operator > 0 {
                    put_value(value.of(line), sink);
                }
            }
            Record::Refusal(_) | Record::Blank | Record::Cut => {}
        }
    }
}

/// The argument by its option's form; an option without one has an empty text here.
fn put_argument(option: u8, text: &[u8], sink: &mut impl Sink) {
    if text.is_empty() {
        return;
    }
    sink.put(b' ');
    match option {
        SOURCE | DESTINATION => put_location(text, sink),
        DISPLAY | OUTPUT => put_item_row(text, sink),
        LEVEL => put_level(text, sink),
        _ => sink.put_all(text),
    }
}

/// A level: its `all` in lower case; a number has no letters.
fn put_level(text: &[u8], sink: &mut impl Sink) {
    for &byte in text {
        sink.put(lowered(byte));
    }
}

/// A source or destination: GRAVE before space, GRAVE, `"` and a leading `-`.
fn put_location(text: &[u8], sink: &mut impl Sink) {
    for (index, byte) in stood_for(text).enumerate() {
        let needs_grave = matches!(byte, b' ' | GRAVE | b'"') || (index == 0 && byte == b'-');
        if needs_grave {
            sink.put(GRAVE);
        }
        sink.put(byte);
    }
}

fn put_item_row(text: &[u8], sink: &mut impl Sink) {
    for (index, item) in items(text).enumerate() {
        if index > 0 {
            sink.put(b',');
        }
        let (name, value) = split_named_item(item);
        sink.put_all(name);
        if let Some(value) = value {
            sink.put(b'=');
            put_value(value, sink);
        }
    }
}

fn put_path(path: &[u8], sink: &mut impl Sink) {
    for &byte in path {
        sink.put(if is_separator(byte) { b'/' } else { byte });
    }
}

fn put_value(value: &[u8], sink: &mut impl Sink) {
    let Some(list) = list_items(value) else {
        return put_item(value, sink);
    };
    sink.put(b'(');
    for (index, item) in list.enumerate() {
        if index > 0 {
            sink.put(b',');
        }
        put_item(item, sink);
    }
    sink.put(b')');
}

/// A value or list item: plain where it is one or more word bytes, otherwise quoted.
fn put_item(item: &[u8], sink: &mut impl Sink) {
    // An escape never stands for a word byte, so only whole quotes can hide a plain item.
    let inside = match item {
        [b'"', inside @ .., b'"'] => inside,
        _ => item,
    };
    if !inside.is_empty() && inside.iter().all(|&byte| is_word(byte)) {
        return sink.put_all(inside);
    }
    sink.put(b'"');
    for byte in stood_for(item) {
        if matches!(byte, GRAVE | b'"') {
            sink.put(GRAVE);
        }
        sink.put(byte);
    }
    sink.put(b'"');
}
