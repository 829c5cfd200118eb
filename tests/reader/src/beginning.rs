//! Document 02's request c: how much of a term can stay, where the term is not of its form.
//!
//! The longest beginning of the text that some continuation makes acceptable, found in one pass
//! from the left and for refused terms alone. A piece of a form ends where its next byte is not its
//! own; it stops all where neither that byte nor the text's end can stand there.

use crate::bytes::{is_word, lowered, GRAVE};
use crate::form::Form;
use crate::path::is_separator;

const LARGEST_KEEP: u64 = 4_294_967_295;
const LARGEST_NUMBER: u64 = 65_535;
const NAME_BYTES: usize = 64;
const TAG_LETTERS: usize = 16;
const SEGMENTS: usize = 16;
const LIST_ITEMS: usize = 16;

/// Where a text can't go on: the length of its longest beginning.
struct Stop(usize);

/// Where a piece ends that is whole, or the stop in it.
type Piece = Result<usize, Stop>;

/// The length of the longest beginning of `text` that is also a beginning of some text of the form.
#[cold]
pub fn longest_beginning(form: Form, text: &[u8]) -> usize {
    let end = match form {
        Form::Keep => Ok(keep_number(text)),
        // The longer of its two branches.
        Form::Level => Ok(keep_number(text).max(word_all(text))),
        Form::Location => Ok(location(text)),
        Form::Items => item_row(text),
        // `SESSION` and its beginnings are beginnings of a tag, so that branch is never the longer.
        Form::Target => path(text),
        Form::Property => property(text),
        Form::Topic => name(text, 0),
    };
    // What ends whole has come to a byte that can't follow it, or to the text's end.
    match end {
        Ok(end) | Err(Stop(end)) => end,
    }
}

/// The digits from `start` on that make a number of at most `largest`.
fn digits(text: &[u8], start: usize, largest: u64) -> usize {
    let (mut at, mut number) = (start, 0);
    while let Some(digit @ b'0'..=b'9') = text.get(at) {
        number = number * 10 + u64::from(digit - b'0');
        if number > largest {
            break;
        }
        at += 1;
    }
    at
}

/// Nothing follows a first 0.
fn keep_number(text: &[u8]) -> usize {
    match text.first() {
        Some(b'0') => 1,
        _ => digits(text, 0, LARGEST_KEEP),
    }
}

/// The beginning that the text shares with `all`, in either case.
fn word_all(text: &[u8]) -> usize {
    let letters = text.iter().zip(b"all");
    letters
        .take_while(|(&byte, &letter)| lowered(byte) == letter)
        .count()
}

/// The place after a GRAVE and the byte behind it. Whichever that is, it can stay: either it is
/// escaped, or it is none of those that end something.
fn after_grave(text: &[u8], grave: usize) -> usize {
    text.len().min(grave + 2)
}

/// Up to the first quote that is not escaped.
fn location(text: &[u8]) -> usize {
    let mut at = 0;
    loop {
        match text.get(at) {
            None | Some(b'"') => return at,
            Some(&GRAVE) => at = after_grave(text, at),
            Some(_) => at += 1,
        }
    }
}

/// A name: a letter, then letters, digits and underscores.
fn name(text: &[u8], start: usize) -> Piece {
    if !text.get(start).is_some_and(u8::is_ascii_alphabetic) {
        return Err(Stop(start));
    }
    let rest = text[start..].iter().take(NAME_BYTES);
    Ok(start + rest.take_while(|&&byte| is_word(byte)).count())
}

/// A name, or with `=` or `==` a value.
fn property(text: &[u8]) -> Piece {
    let name = name(text, 0)?;
    match text[name..] {
        [b'=', b'=', ..] => value(text, name + 2),
        [b'=', ..] => value(text, name + 1),
        _ => Ok(name),
    }
}

/// Names, or names with `=` and a value, parted by commas.
fn item_row(text: &[u8]) -> Piece {
    let mut at = 0;
    loop {
        at = name(text, at)?;
        if text.get(at) == Some(&b'=') {
            at = value(text, at + 1)?;
        }
        match text.get(at) {
            Some(b',') => at += 1,
            _ => return Ok(at),
        }
    }
}

fn value(text: &[u8], start: usize) -> Piece {
    match text.get(start) {
        Some(b'(') => list(text, start + 1),
        _ => item(text, start),
    }
}

/// The items of a list up to its closing parenthesis; no comma follows the 16th.
fn list(text: &[u8], start: usize) -> Piece {
    let mut at = start;
    for count in 1.. {
        at = item(text, at)?;
        match text.get(at) {
            Some(b')') => return Ok(at + 1),
            Some(b',') if count < LIST_ITEMS => at += 1,
            _ => break,
        }
    }
    Err(Stop(at))
}

fn item(text: &[u8], start: usize) -> Piece {
    match text.get(start) {
        Some(b'"') => quoted(text, start + 1),
        _ => plain(text, start),
    }
}

/// The inside of a quote, and the quote that closes it.
fn quoted(text: &[u8], start: usize) -> Piece {
    let mut at = start;
    loop {
        match text.get(at) {
            None => return Err(Stop(at)),
            Some(b'"') => return Ok(at + 1),
            Some(&GRAVE) => at = after_grave(text, at),
            Some(_) => at += 1,
        }
    }
}

/// One or more bytes, none of them a bare `"` `,` `(` `)` `=`.
fn plain(text: &[u8], start: usize) -> Piece {
    let mut at = start;
    loop {
        match text.get(at) {
            None | Some(b'"' | b',' | b'(' | b')' | b'=') => break,
            Some(&GRAVE) => at = after_grave(text, at),
            Some(_) => at += 1,
        }
    }
    if at == start {
        return Err(Stop(at));
    }
    Ok(at)
}

/// Segments after an optional separator; no separator follows the 16th.
fn path(text: &[u8]) -> Piece {
    let is_parted = |at: usize| text.get(at).is_some_and(|&byte| is_separator(byte));
    let mut at = usize::from(is_parted(0));
    for count in 1.. {
        at = segment(text, at)?;
        if count == SEGMENTS || !is_parted(at) {
            break;
        }
        at += 1;
    }
    Ok(at)
}

fn segment(text: &[u8], start: usize) -> Piece {
    match text[start..] {
        [b'.', b'.', ..] => Ok(start + 2),
        [b'.', ..] => Ok(start + 1),
        _ => tagged(text, start),
    }
}

/// A tag and its number; or a tag and `*`, after which nothing can follow.
fn tagged(text: &[u8], start: usize) -> Piece {
    let letters = text[start..].iter().take(TAG_LETTERS);
    let letters = letters.take_while(|byte| byte.is_ascii_alphabetic());
    let tag = start + letters.count();
    match text.get(tag) {
        Some(b'*') if tag > start => Err(Stop(tag + 1)),
        Some(b'1'..=b'9') if tag > start => Ok(digits(text, tag, LARGEST_NUMBER)),
        _ => Err(Stop(tag)),
    }
}
