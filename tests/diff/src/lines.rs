//! Lines: reading, target, terms, canonical writing and the text of records.

use crate::lent::{bytes, size_near};
use smclp::face;
use clp_gen::{damage::damage, line, Rng};
use clp_reader::canonical::write_canonical;
use clp_reader::reading::{read, target_part};
use clp_reader::records::write_text;
use clp_reader::refusal::Refusal;
use clp_reader::terms::{next_term, write_stood_for};

/// How often each answer was met, so that a run can show what it covered.
#[derive(Default)]
pub struct Counts {
    accepted: usize,
    refused: [usize; 21],
    longest: usize,
}

impl Counts {
    pub fn show(&self) {
        println!("diff: accepted {}, refused by number {:?}", self.accepted, &self.refused[1..]);
        println!("diff: the longest canonical writing has {} of {} bytes", self.longest, LONGEST_WRITING);
    }
}

/// The answer of the independent reader in the face's terms.
pub fn as_answer(answer: Result<usize, Refusal>) -> face::Answer {
    match answer {
        Ok(value) => face::Answer { number: 0, value: value as u64 },
        Err(refusal) => refused(refusal),
    }
}

pub fn refused(refusal: Refusal) -> face::Answer {
    face::Answer {
        number: u64::from(refusal.number),
        value: refusal.place as u64,
    }
}

/// Both libraries write the same into rooms of one size, and leave the rest.
pub fn same_writing(
    rng: &mut Rng,
    size: usize,
    ours: impl Fn(&mut [u8]) -> face::Answer,
    theirs: impl Fn(&mut [u8]) -> Result<usize, Refusal>,
    shown: &[u8],
) -> face::Answer {
    let (mut left, mut right) = (bytes(rng, size), bytes(rng, size));
    let answer = ours(left.room());
    let expected = as_answer(theirs(right.room()));
    assert_eq!(answer, expected, "room {size}: {}", shown.escape_ascii());
    if answer.number == 0 {
        let length = answer.value as usize;
        assert_eq!(left.wrote(length), right.wrote(length), "{}", shown.escape_ascii());
    } else {
        left.unchanged();
    }
    answer
}

/// A generated line in all ways.
pub fn compare(rng: &mut Rng, counts: &mut Counts) {
    let line = line::line(rng);
    compare_line(rng, &line, counts);
}

pub fn compare_line(rng: &mut Rng, line: &[u8], counts: &mut Counts) {
    let mut room = [0; 400];
    let needed = read(line, &mut room).map_or(0, |reading| reading.length);
    let size = size_near(rng, needed, 420);
    let ours = |room: &mut [u8]| face::read(line, room);
    let theirs = |room: &mut [u8]| read(line, room).map(|reading| reading.length);
    let answer = same_writing(rng, size, ours, theirs, line);
    match answer.number {
        0 => counts.accepted += 1,
        number => counts.refused[number as usize] += 1,
    }
    compare_target(line);
    compare_terms(rng, line);
    counts.longest = counts.longest.max(compare_writing(rng, line));
    compare_meaning(rng, line);
    if needed > 0 {
        compare_text(rng, &room[..needed]);
        compare_damaged(rng, &room[..needed]);
    }
}

fn compare_target(line: &[u8]) {
    let part = target_part(line);
    let expected = face::Part {
        position: u64::from(part.position),
        length: u64::from(part.length),
    };
    assert_eq!(face::target(line), expected, "{}", line.escape_ascii());
}

/// All terms from the start, then one place at random, also past the end.
fn compare_terms(rng: &mut Rng, line: &[u8]) {
    let mut place = 0;
    while let Some(end) = compare_term(line, place) {
        place = end;
    }
    let anywhere = rng.below(line.len() + 3);
    compare_term(line, anywhere);
}

fn compare_term(line: &[u8], place: usize) -> Option<usize> {
    let found = next_term(line, place);
    let (answer, length) = match found {
        Err(refusal) => (refused(refusal), 0),
        Ok(None) => (face::Answer { number: 0, value: face::NONE }, 0),
        Ok(Some(part)) => (as_answer(Ok(usize::from(part.position))), u64::from(part.length)),
    };
    let expected = face::Term {
        number: answer.number,
        value: answer.value,
        length,
    };
    assert_eq!(face::next_term(line, place), expected, "{}", line.escape_ascii());
    found.ok().flatten().map(|part| usize::from(part.position) + usize::from(part.length))
}

/// The longest that a writing can be; the header's room has a little more (docs/DECISIONS.md).
const LONGEST_WRITING: usize = 1976;

/// The writing's length, which is within that bound.
fn compare_writing(rng: &mut Rng, line: &[u8]) -> usize {
    let mut room = [0; 4200];
    let needed = write_canonical(line, &mut room).unwrap_or(0);
    assert!(needed <= LONGEST_WRITING, "{}", line.escape_ascii());
    let size = size_near(rng, needed, 1100);
    let ours = |room: &mut [u8]| face::canonical(line, room);
    let theirs = |room: &mut [u8]| write_canonical(line, room);
    same_writing(rng, size, ours, theirs, line);
    needed
}

/// What the whole line, taken as one text, stands for.
fn compare_meaning(rng: &mut Rng, line: &[u8]) {
    let size = size_near(rng, line.len(), 1100);
    let ours = |room: &mut [u8]| face::meant(line, room);
    let theirs = |room: &mut [u8]| write_stood_for(line, room);
    same_writing(rng, size, ours, theirs, line);
}

fn compare_text(rng: &mut Rng, records: &[u8]) {
    let mut room = [0; 4096];
    let needed = write_text(records, &mut room).unwrap_or(0);
    assert!(needed <= face::TEXT_BYTES && needed <= 6 * records.len());
    let size = size_near(rng, needed, 600);
    let ours = |room: &mut [u8]| face::records_text(records, room);
    let theirs = |room: &mut [u8]| write_text(records, room);
    same_writing(rng, size, ours, theirs, records);
}

/// Records that lost, doubled or changed a byte: mostly bad somewhere.
fn compare_damaged(rng: &mut Rng, records: &[u8]) {
    let mut bytes = records.to_vec();
    damage(rng, &mut bytes);
    if rng.percent(50) {
        let at = rng.below(bytes.len() + 1);
        bytes.insert(at, rng.byte() % 20);
    }
    compare_text(rng, &bytes);
}
