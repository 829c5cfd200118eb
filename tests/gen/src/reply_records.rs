//! Records over a text, as a writer of replies takes them: good by their making, spoiled in one way
//! or another, with a writing about as long as a reply may be.

use crate::damage::damage;
use crate::reply::{good_reply, Said, MOST_BYTES};
use crate::rng::Rng;

/// Records and the text that they point into.
#[derive(Clone, Debug)]
pub struct ToWrite {
    pub records: Vec<u8>,
    pub text: Vec<u8>,
}

/// One of them: about half are good.
pub fn to_write(rng: &mut Rng) -> ToWrite {
    let mut made = match rng.below(50) {
        0 => long_writing(rng),
        1 => many_records(rng),
        _ => good_records(rng),
    };
    if rng.percent(50) {
        for _ in 0..rng.between(1, 2) {
            spoil(rng, &mut made);
        }
    }
    // What follows the end of the output is never looked at.
    if rng.percent(20) {
        let more = rng.between(1, 12);
        made.records
            .extend((0..more).map(|_| *rng.pick(&[0, 64, 65, 66, 67, 68, 255])));
    }
    made
}

/// What a reply says, laid out as records over a text of its own.
fn good_records(rng: &mut Rng) -> ToWrite {
    let said = good_reply(rng).said;
    laid_out(rng, &said)
}

/// The records that say this. Parts stand anywhere in the text, share bytes, and need no order.
pub fn laid_out(rng: &mut Rng, said: &[Said]) -> ToWrite {
    let mut layout = Layout {
        text: Vec::new(),
        shares: rng.percent(50),
    };
    let mut records = Vec::new();
    for said in said {
        match said {
            Said::Item { keyword, value } => {
                records.push(64);
                records.extend(layout.part(rng, keyword));
                records.extend(layout.part(rng, value));
            }
            Said::Group { type_name } => {
                records.push(65);
                records.extend(layout.part(rng, type_name));
            }
            Said::EndGroup => records.push(66),
            Said::EndOutput => records.push(67),
        }
    }
    ToWrite {
        records,
        text: layout.text,
    }
}

/// A text to which parts are added.
struct Layout {
    text: Vec<u8>,
    /// Whether bytes that are there already are used once more.
    shares: bool,
}

impl Layout {
    /// The fields of a part with these bytes.
    fn part(&mut self, rng: &mut Rng, bytes: &[u8]) -> Vec<u8> {
        let found = match self.shares && !bytes.is_empty() && self.text.len() < 2000 {
            true => self
                .text
                .windows(bytes.len())
                .position(|part| part == bytes),
            false => None,
        };
        let position = found.unwrap_or_else(|| {
            if rng.percent(20) {
                self.text.push(*rng.pick(b"x\"\n="));
            }
            self.text.extend_from_slice(bytes);
            self.text.len() - bytes.len()
        });
        fields(position, bytes.len())
    }
}

/// Position and length, two bytes each; what doesn't fit is cut off.
fn fields(position: usize, length: usize) -> Vec<u8> {
    [position as u16, length as u16]
        .map(u16::to_be_bytes)
        .concat()
}

fn item(keyword: (usize, usize), value: (usize, usize)) -> Vec<u8> {
    let (keyword, value) = (fields(keyword.0, keyword.1), fields(value.0, value.1));
    [&[64][..], &keyword, &value].concat()
}

/// Few items whose lines have together about as many bytes as a reply may have.
fn long_writing(rng: &mut Rng) -> ToWrite {
    let marks = *rng.pick(&[0, 0, 1, 700]);
    let filling = *rng.pick(b"x`\n\"");
    let text = [&b"ab\n"[..], &b"\"".repeat(marks), &vec![filling; 40_000]].concat();
    let wanted = rng.between(MOST_BYTES - 4, MOST_BYTES + 4) - "endoutput\n".len();
    let mut records = Vec::new();
    let mut left = wanted;
    // Two values that are plain, or quoted, and then as much as is left.
    for _ in 0..rng.below(3) {
        let start = rng.between(0, 5);
        let length = rng.below(15_000);
        left = left.saturating_sub("a=\n".len() + written_length(&text[start..start + length]));
        records.extend(item((0, 1), (start, length)));
    }
    let start = *rng.pick(&[0, 2, 3]);
    let fits =
        |length: &usize| "ab=\n".len() + written_length(&text[start..start + length]) <= left;
    let longest = (text.len() - start).min(left);
    // The longest value that fits, found by halving.
    let (mut low, mut high) = (0, longest);
    while low < high {
        let middle = (low + high).div_ceil(2);
        match fits(&middle) {
            true => low = middle,
            false => high = middle - 1,
        }
    }
    records.extend(item((0, 2), (start, low)));
    records.push(67);
    ToWrite { records, text }
}

/// How many bytes a value takes in a reply.
fn written_length(value: &[u8]) -> usize {
    let count = |marks: &[u8]| value.iter().filter(|byte| marks.contains(byte)).count();
    match value.first() == Some(&b'"') || count(b"\r\n") > 0 {
        true => 2 + value.len() + count(b"\"`"),
        false => value.len(),
    }
}

/// So many records that they have more bytes than a field can count; some write more than a reply
/// may have.
fn many_records(rng: &mut Rng) -> ToWrite {
    let count = *rng.pick(&[7_282, 7_300, 9_000, 21_841, 21_842]);
    let mut records = item((0, 1), (1, 0)).repeat(count);
    records.push(67);
    ToWrite {
        records,
        text: b"a".to_vec(),
    }
}

/// Spoils records or their text in one way; now and then that changes nothing.
fn spoil(rng: &mut Rng, made: &mut ToWrite) {
    let starts = starts_of(&made.records);
    let at = *rng.pick(&starts);
    let ToWrite { records, text } = made;
    match rng.below(14) {
        0 => records.insert(at, *rng.pick(&[0, 1, 16, 63, 68, 255])),
        1 => records.insert(at, 66),
        2 => records.insert(at, 67),
        3 => insert(records, at, &[&[65][..], &name_in(rng, text)].concat()),
        4 => records.truncate(at),
        5 => {
            let left = rng.below(records.len() + 1);
            records.truncate(left);
        }
        6 | 7 => set_field(rng, records, at, text.len()),
        8 => insert(records, at, &item((rng.below(9), rng.below(70)), (0, 0))),
        9 => {
            let left = rng.below(text.len() + 1);
            text.truncate(left);
        }
        10 => {
            // Nine groups inside each other, of which the ninth is one too many.
            let group = [&[65][..], &name_in(rng, text)].concat();
            insert(records, at, &group.repeat(rng.between(7, 9)));
        }
        11 => name_a_word(rng, made, at),
        12 if rng.percent(30) => text.resize(rng.between(MOST_BYTES, MOST_BYTES + 1), b'x'),
        _ => damage(rng, records),
    }
}

/// Where records begin, as far as their kinds tell; the end of all counts too.
fn starts_of(records: &[u8]) -> Vec<usize> {
    let mut starts = vec![0];
    let mut at = 0;
    while at < records.len() {
        at += match records[at] {
            64 => 9,
            65 => 5,
            _ => 1,
        };
        starts.push(at.min(records.len()));
    }
    starts
}

fn insert(records: &mut Vec<u8>, at: usize, record: &[u8]) {
    records.splice(at..at, record.iter().copied());
}

/// The fields of some letter of the text, or of its first byte.
fn name_in(rng: &mut Rng, text: &[u8]) -> Vec<u8> {
    let letters: Vec<usize> = (0..text.len().min(500))
        .filter(|&at| text[at].is_ascii_alphabetic())
        .collect();
    match letters.is_empty() {
        true => fields(0, 1),
        false => fields(*rng.pick(&letters), 1),
    }
}

/// Puts another number into a field of the record at a place.
fn set_field(rng: &mut Rng, records: &mut [u8], at: usize, text_length: usize) {
    let count = match records.get(at) {
        Some(64) => 4,
        Some(65) => 2,
        _ => return,
    };
    let field = at + 1 + 2 * rng.below(count);
    let Some(slot) = records.get_mut(field..field + 2) else {
        return;
    };
    let old = usize::from(slot[0]) * 256 + usize::from(slot[1]);
    let near = [
        old + 1,
        old.wrapping_sub(1),
        0,
        text_length,
        text_length + 1,
        65_535,
    ];
    slot.copy_from_slice(&(*rng.pick(&near) as u16).to_be_bytes());
}

/// Puts in an item or a group whose name is one of the words that are no keyword, or almost one.
fn name_a_word(rng: &mut Rng, made: &mut ToWrite, at: usize) {
    const WORDS: [&str; 9] = [
        "begingroup",
        "endgroup",
        "endoutput",
        "endgroups",
        "1",
        "_a",
        "a=b",
        "#a",
        "a b",
    ];
    let word = rng.pick_text(&WORDS);
    let position = made.text.len();
    made.text.extend_from_slice(word);
    let part = (position, word.len());
    match rng.percent(60) {
        true => insert(&mut made.records, at, &item(part, (position, 1))),
        false => insert(
            &mut made.records,
            at,
            &[&[65][..], &fields(part.0, part.1), &[66]].concat(),
        ),
    }
}
