//! Terms that are almost of their form: a good one, often at a limit, with one byte put in, put for
//! another, taken out or put after it, or with its end cut off; and lines that have such a term.

use crate::beginnings::{good_texts, heads, BYTES};
use crate::form::{Form, FORMS};
use crate::line::{
    put_items, put_location, put_name, put_number, put_property, put_quoted_item, put_segment,
    put_target, put_word_bytes, separator,
};
use crate::rng::Rng;
use crate::shout::shout;

/// What may follow such a term: nothing, spaces, a good term, one that is refused as well.
const TAILS: [&str; 8] = ["", "", "", "  ", " Name", " a=b", " a=b=c", " -zz"];

/// A text that is almost of the form.
pub fn almost(rng: &mut Rng, form: Form) -> Vec<u8> {
    let mut text = good_text(rng, form);
    spoil(rng, &mut text);
    text
}

/// A line with such a term, its verb and option names shouted now and then.
pub fn almost_line(rng: &mut Rng) -> Vec<u8> {
    let form = *rng.pick(&FORMS);
    let mut line = rng.pick_text(heads(form)).to_vec();
    if rng.percent(20) {
        shout(rng, &mut line);
    }
    line.extend(almost(rng, form));
    line.extend_from_slice(rng.pick_text(&TAILS));
    line
}

/// A text of the form: one at a limit or of each kind, or one by the grammar.
fn good_text(rng: &mut Rng, form: Form) -> Vec<u8> {
    if rng.percent(50) {
        return rng.pick(&good_texts(form)).clone().into_bytes();
    }
    let put = match form {
        Form::Keep | Form::Level => put_number,
        Form::Location => put_location,
        Form::Items => put_items,
        Form::Target => put_target,
        Form::Property => put_property,
        Form::Topic => put_name,
    };
    let mut text = Vec::new();
    put(rng, &mut text);
    text
}

/// Puts one byte in, for another or after all, takes one out, or cuts off the end.
fn spoil(rng: &mut Rng, text: &mut Vec<u8>) {
    let byte = *rng.pick(BYTES);
    let at = rng.below(text.len());
    match rng.below(5) {
        0 => text.insert(at, byte),
        1 => text[at] = byte,
        2 => {
            text.remove(at);
        }
        3 => text.push(byte),
        _ => text.truncate(at),
    }
}

/// A line whose last term is long and of its form up to one byte close to its end: the benchmark's.
pub fn late_line(rng: &mut Rng) -> Vec<u8> {
    let form = *rng.pick(&[Form::Location, Form::Items, Form::Target, Form::Property]);
    let mut line = rng.pick_text(heads(form)).to_vec();
    put_long(rng, form, &mut line);
    line.push(*rng.pick(b"\"(=,)/.*"));
    let rest = rng.below(4);
    put_word_bytes(rng, rest, &mut line);
    // What a quote has opened is closed again.
    if line.iter().filter(|&&byte| byte == b'"').count() % 2 == 1 {
        line.push(b'"');
    }
    line
}

/// A long text of the form.
fn put_long(rng: &mut Rng, form: Form, line: &mut Vec<u8>) {
    match form {
        Form::Location => {
            for _ in 0..rng.between(4, 12) {
                line.extend_from_slice(b"/");
                put_word_bytes(rng, 12, line);
            }
        }
        Form::Target => {
            for _ in 0..rng.between(12, 16) {
                line.push(separator(rng));
                put_segment(rng, false, line);
            }
        }
        Form::Items => {
            for _ in 0..rng.between(3, 6) {
                put_items(rng, line);
                line.push(b',');
            }
            put_items(rng, line);
        }
        _ => {
            put_name(rng, line);
            line.push(b'=');
            if rng.percent(50) {
                let length = rng.between(40, 200);
                put_word_bytes(rng, length, line);
            } else {
                line.push(b'(');
                for _ in 0..rng.between(8, 15) {
                    put_quoted_item(rng, line);
                    line.push(b',');
                }
                put_word_bytes(rng, 1, line);
            }
        }
    }
}
