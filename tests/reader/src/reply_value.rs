//! Values of replies (request e of document 02): what a value as a reply has it stands for, and
//! how plain bytes are written as one.

use crate::bytes::{grave_width, CR, GRAVE, LF};
use crate::refusal::{Refusal, REPLY_LINE_MALFORMED, ROOM_TOO_SMALL};
use crate::sink::{Count, Fill, Sink};
use crate::value::quoted_length;

/// Writes the bytes that a raw value stands for into lent room, and tells how many they are.
pub fn reply_value(raw: &[u8], room: &mut [u8]) -> Result<usize, Refusal> {
    let Some(inside) = inside_quotes(raw)? else {
        let answer = room.get_mut(..raw.len()).ok_or(ROOM_TOO_SMALL)?;
        answer.copy_from_slice(raw);
        return Ok(raw.len());
    };
    let mut needed = Count::default();
    put_meant(inside, &mut needed);
    let answer = room.get_mut(..needed.0).ok_or(ROOM_TOO_SMALL)?;
    put_meant(inside, &mut Fill::new(answer));
    Ok(needed.0)
}

/// What stands between the quotes of a quoted value; none where the value is a plain one.
fn inside_quotes(raw: &[u8]) -> Result<Option<&[u8]>, Refusal> {
    if raw.first() != Some(&b'"') {
        return Ok(None);
    }
    match quoted_length(raw) {
        Some(length) if length == raw.len() => Ok(Some(&raw[1..length - 1])),
        _ => Err(Refusal::new(REPLY_LINE_MALFORMED, 0)),
    }
}

/// The bytes between two quotes without the GRAVEs that escape: those before `"` and GRAVE.
fn put_meant(inside: &[u8], sink: &mut impl Sink) {
    let mut rest = inside;
    while let Some(at) = rest.iter().position(|&byte| byte == GRAVE) {
        let width = grave_width(rest, at, true);
        sink.put_all(&rest[..at]);
        sink.put(rest[at + width - 1]);
        rest = &rest[at + width..];
    }
    sink.put_all(rest);
}

/// Plain bytes as a reply has them: quoted where they hold CR or LF or begin with `"`.
pub(crate) fn put_value(value: &[u8], sink: &mut impl Sink) {
    let is_quoted =
        value.first() == Some(&b'"') || value.iter().any(|byte| [CR, LF].contains(byte));
    if !is_quoted {
        return sink.put_all(value);
    }
    sink.put(b'"');
    for piece in value.split_inclusive(|&byte| needs_grave(byte)) {
        match piece {
            [before @ .., last] if needs_grave(*last) => {
                sink.put_all(before);
                sink.put_all(&[GRAVE, *last]);
            }
            _ => sink.put_all(piece),
        }
    }
    sink.put(b'"');
}

/// Whether a GRAVE stands before the byte inside quotes.
fn needs_grave(byte: u8) -> bool {
    matches!(byte, GRAVE | b'"')
}
