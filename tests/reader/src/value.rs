//! Values, lists and the items of display and output.

use crate::bytes::{ends_plain_run, grave_width, GRAVE};
use crate::vocabulary::name_length;

/// The most items of a list.
const MOST_LIST_ITEMS: usize = 16;

/// The length of the value that `text` begins with; what may follow is the caller's to judge.
pub(crate) fn value_length(text: &[u8]) -> Option<usize> {
    match text.first()? {
        b'(' => list_length(text),
        _ => item_length(text),
    }
}

/// Whether `text` is one or more items parted by bare commas: a name, or a name, `=` and a value.
pub(crate) fn is_item_row(text: &[u8]) -> bool {
    let mut rest = text;
    loop {
        let Some(length) = named_item_length(rest) else {
            return false;
        };
        match rest.get(length) {
            None => return true,
            Some(b',') => rest = &rest[length + 1..],
            Some(_) => return false,
        }
    }
}

fn named_item_length(text: &[u8]) -> Option<usize> {
    let name = name_length(text)?;
    match text.get(name) {
        Some(b'=') => Some(name + 1 + value_length(&text[name + 1..])?),
        _ => Some(name),
    }
}

/// A list: 1 to 16 items in parentheses, parted by bare commas.
fn list_length(text: &[u8]) -> Option<usize> {
    let mut place = 1;
    for _ in 0..MOST_LIST_ITEMS {
        place += item_length(text.get(place..)?)?;
        match text.get(place)? {
            b',' => place += 1,
            b')' => return Some(place + 1),
            _ => return None,
        }
    }
    None
}

/// A quoted or plain item.
fn item_length(text: &[u8]) -> Option<usize> {
    match text.first()? {
        b'"' => quoted_length(text),
        _ => plain_length(text),
    }
}

/// A quoted string with both its quotes.
pub(crate) fn quoted_length(text: &[u8]) -> Option<usize> {
    let mut place = 1;
    loop {
        match text.get(place)? {
            b'"' => return Some(place + 1),
            &GRAVE => place += grave_width(text, place, true),
            _ => place += 1,
        }
    }
}

/// One or more bytes up to a bare `"` `,` `(` `)` `=` or the end.
fn plain_length(text: &[u8]) -> Option<usize> {
    let mut place = 0;
    while let Some(&byte) = text.get(place) {
        match byte {
            GRAVE => place += grave_width(text, place, false),
            _ if ends_plain_run(byte) => break,
            _ => place += 1,
        }
    }
    (place > 0).then_some(place)
}

/// The items of a list, where `value` is one.
pub(crate) fn list_items(value: &[u8]) -> Option<Items<'_>> {
    match value {
        [b'(', inner @ .., b')'] => Some(items(inner)),
        _ => None,
    }
}

/// The pieces of an accepted row or of a list's inside, parted by bare commas in no list.
pub(crate) fn items(text: &[u8]) -> Items<'_> {
    Items { rest: Some(text) }
}

pub(crate) struct Items<'t> {
    rest: Option<&'t [u8]>,
}

impl<'t> Iterator for Items<'t> {
    type Item = &'t [u8];

    fn next(&mut self) -> Option<&'t [u8]> {
        let text = self.rest?;
        let comma = bare_comma(text);
        let end = comma.unwrap_or(text.len());
        self.rest = comma.map(|at| &text[at + 1..]);
        Some(&text[..end])
    }
}

/// The first comma that is bare and stands in no list.
fn bare_comma(text: &[u8]) -> Option<usize> {
    let mut place = 0;
    let (mut in_quote, mut in_list) = (false, false);
    loop {
        match text.get(place)? {
            &GRAVE => place += grave_width(text, place, in_quote) - 1,
            b'"' => in_quote = !in_quote,
            b'(' if !in_quote => in_list = true,
            b')' if !in_quote => in_list = false,
            b',' if !in_quote && !in_list => return Some(place),
            _ => {}
        }
        place += 1;
    }
}

/// A name with the value that follows its `=`, as one item of display or output.
pub(crate) fn split_named_item(item: &[u8]) -> (&[u8], Option<&[u8]>) {
    match item.iter().position(|&byte| byte == b'=') {
        Some(at) => (&item[..at], Some(&item[at + 1..])),
        None => (item, None),
    }
}
