//! What is worked on: console text, commands, a tree of 16 levels, and replies.

use clp_gen::{almost, board, excluded, line, tree, Rng};
use clp_reader::reading::read;
use clp_reader::refusal::{Refusal, ARGUMENT_MALFORMED, NOT_FOR_VERB, PROPERTY_MALFORMED, TARGET_MALFORMED};
use clp_reader::reply::MOST_REPLY_BYTES;
use clp_reader::reply_items::{items_of_reply, ReplyItem};

/// Lines of at least so many bytes together.
fn lines(size: usize, mut next: impl FnMut() -> Vec<u8>) -> Vec<Vec<u8>> {
    let (mut all, mut total) = (Vec::new(), 0);
    while total < size {
        let line = next();
        total += line.len() + 1;
        all.push(line);
    }
    all
}

/// Commands that are accepted.
pub fn commands(rng: &mut Rng, size: usize) -> Vec<Vec<u8>> {
    accepted(rng, size, line::valid_line)
}

/// Such commands with verb, option names and level's `all` in capitals.
pub fn shouted(rng: &mut Rng, size: usize) -> Vec<Vec<u8>> {
    accepted(rng, size, line::loud_line)
}

fn accepted(rng: &mut Rng, size: usize, make: fn(&mut Rng) -> Vec<u8>) -> Vec<Vec<u8>> {
    let mut room = [0; 400];
    lines(size, || loop {
        let line = make(rng);
        if read(&line, &mut room).is_ok() && !line.is_empty() {
            return line;
        }
    })
}

/// Commands with an option put in that the verb can't have, which are refused as 20.
pub fn excluded(rng: &mut Rng, size: usize) -> Vec<Vec<u8>> {
    refused(rng, size, |rng| excluded::excluded(rng).line, |_, refusal| refusal.number == NOT_FOR_VERB)
}

/// Lines that are refused as 10, 12 or 13 in a long last term, in the line's last quarter.
pub fn near_misses(rng: &mut Rng, size: usize) -> Vec<Vec<u8>> {
    refused(rng, size, almost::late_line, |line, refusal| {
        let is_form = [ARGUMENT_MALFORMED, TARGET_MALFORMED, PROPERTY_MALFORMED].contains(&refusal.number);
        is_form && 4 * refusal.place > 3 * line.len()
    })
}

fn refused(
    rng: &mut Rng,
    size: usize,
    make: fn(&mut Rng) -> Vec<u8>,
    is_wanted: fn(&[u8], Refusal) -> bool,
) -> Vec<Vec<u8>> {
    let mut room = [0; 400];
    lines(size, || loop {
        let line = make(rng);
        if read(&line, &mut room).is_err_and(|refusal| is_wanted(&line, refusal)) {
            return line;
        }
    })
}

/// Words as a console prints them: mostly no commands.
pub fn noise(rng: &mut Rng, size: usize) -> Vec<Vec<u8>> {
    const WORDS: [&str; 12] = ["the", "server", "power", "supply", "fan", "status:", "ok", "temperature", "(degrees)", "is", "42.", "Login"];
    lines(size, || {
        let count = rng.below(14);
        (0..count).flat_map(|_| [rng.pick_text(&WORDS), b" "].concat()).collect()
    })
}

fn joined(lines: Vec<Vec<u8>>, size: usize) -> Vec<u8> {
    let mut capture: Vec<u8> = lines.into_iter().flat_map(|line| [&line[..], b"\r\n"].concat()).collect();
    capture.truncate(size);
    capture
}

pub fn console(rng: &mut Rng, size: usize) -> Vec<u8> {
    joined(noise(rng, size), size)
}

/// Console text with a command in about one line of four.
pub fn mixed(rng: &mut Rng, size: usize) -> Vec<u8> {
    let (text, typed) = (noise(rng, size), commands(rng, size / 4));
    let mut all = Vec::new();
    for (at, line) in text.into_iter().enumerate() {
        all.push(line);
        if at % 3 == 0 {
            all.push(typed[at / 3 % typed.len()].clone());
        }
    }
    joined(all, size)
}

/// A tree of 512 nodes with a path of 16 segments in it, and that path.
pub fn deep_tree() -> (Vec<u8>, Vec<u8>) {
    let (mut bytes, mut path) = (Vec::new(), Vec::new());
    for node in 1u16..=512 {
        let parent = if node <= 16 { node - 1 } else { node % 16 };
        let mut record = [0; 22];
        record[0] = 16;
        record[1..3].copy_from_slice(&parent.to_be_bytes());
        record[3] = 6;
        record[4..10].copy_from_slice(b"system");
        record[20..22].copy_from_slice(&node.to_be_bytes());
        bytes.extend_from_slice(&record);
        if node <= 16 {
            path.push(b'/');
            path.extend_from_slice(&tree::segment_text(b"system", node));
        }
    }
    (bytes, path)
}

/// A reply as a board gives it, of about so many bytes and no more than a reply may have.
pub fn reply(rng: &mut Rng, size: usize) -> Vec<u8> {
    board::board_reply(rng, size.min(MOST_REPLY_BYTES))
}

/// The records that a reply is written from, and their text: its keywords, types and plain values one after another.
pub fn to_write(reply: &[u8]) -> (Vec<u8>, Vec<u8>) {
    let (mut records, mut text) = (Vec::new(), Vec::new());
    let mut part = |bytes: &[u8]| {
        let fields = [text.len() as u16, bytes.len() as u16].map(u16::to_be_bytes).concat();
        text.extend_from_slice(bytes);
        fields
    };
    for item in items_of_reply(reply).expect("a good reply") {
        match item {
            ReplyItem::Item { keyword, value } => records.extend([&[64][..], &part(&keyword), &part(&value)].concat()),
            ReplyItem::Group { type_name } => records.extend([&[65][..], &part(&type_name)].concat()),
            ReplyItem::EndGroup => records.push(66),
            ReplyItem::EndOutput => records.push(67),
        }
    }
    (records, text)
}
