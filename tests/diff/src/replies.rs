//! Replies: read, written, and what raw values stand for. Every input is lent between canaries too, and stays as it is.

use crate::lent::{Lent, EDGE};
use crate::lines::same_writing;
use clp_gen::reply::{reply, MOST_BYTES};
use clp_gen::reply_records::to_write;
use clp_gen::reply_value::raw_value;
use clp_gen::Rng;
use clp_reader::refusal::Refusal;
use clp_reader::reply::read_reply;
use clp_reader::reply_value::reply_value;
use clp_reader::reply_writer::write_reply;
use smclp::face;

/// How often each answer was met by one function: 0 for none refused.
#[derive(Default)]
struct Met([usize; 26]);

impl Met {
    fn count(&mut self, answer: face::Answer) {
        self.0[answer.number as usize] += 1;
    }

    fn show(&self, what: &str) {
        let Met(met) = self;
        println!(
            "diff: {what} {}, refused by number 21 to 25 {:?}",
            met[0],
            &met[21..]
        );
    }
}

#[derive(Default)]
pub struct Counts {
    read: Met,
    written: Met,
    values: Met,
    longest_records: usize,
}

impl Counts {
    pub fn show(&self) {
        self.read.show("replies read");
        self.written.show("records written as replies");
        self.values.show("raw values");
        println!(
            "diff: the longest records of a reply have {} bytes",
            self.longest_records
        );
        // A long run meets every refusal; 19 is met with every input, by rooms that are too small.
        let total: usize = self.read.0.iter().sum();
        let refused = [&self.read, &self.written].map(|met| &met.0[21..]);
        assert!(total < 10_000 || refused.concat().iter().all(|&count| count > 0));
    }
}

/// A generated reply, read by both.
pub fn compare_reading(rng: &mut Rng, counts: &mut Counts) {
    let reply = reply(rng);
    let needed = read_reply(&reply, &mut vec![0; 3 * reply.len()]).unwrap_or(0);
    counts.longest_records = counts.longest_records.max(needed);
    let lent = Lent::of(&reply);
    let ours = |room: &mut [u8]| face::read_reply(lent.bytes(), room);
    let theirs = |room: &mut [u8]| read_reply(&reply, room);
    counts
        .read
        .count(in_rooms(rng, needed, ours, theirs, &reply));
    lent.unchanged();
}

/// Generated records over a text, written by both.
pub fn compare_writing(rng: &mut Rng, counts: &mut Counts) {
    let made = to_write(rng);
    let needed = write_reply(&made.records, &made.text, &mut [0; MOST_BYTES]).unwrap_or(0);
    let (records, text) = (Lent::of(&made.records), Lent::of(&made.text));
    let ours = |room: &mut [u8]| face::write_reply(records.bytes(), text.bytes(), room);
    let theirs = |room: &mut [u8]| write_reply(&made.records, &made.text, room);
    counts
        .written
        .count(in_rooms(rng, needed, ours, theirs, &made.records));
    records.unchanged();
    text.unchanged();
}

/// What a generated raw value stands for, by both.
pub fn compare_value(rng: &mut Rng, counts: &mut Counts) {
    let raw = raw_value(rng).raw;
    let needed = reply_value(&raw, &mut vec![0; raw.len()]).unwrap_or(0);
    let lent = Lent::of(&raw);
    let ours = |room: &mut [u8]| face::reply_value(lent.bytes(), room);
    let theirs = |room: &mut [u8]| reply_value(&raw, room);
    counts
        .values
        .count(in_rooms(rng, needed, ours, theirs, &raw));
    lent.unchanged();
}

/// The same in room of exactly what is needed, in more, in one byte less, and in any; the answer in the first.
fn in_rooms(
    rng: &mut Rng,
    needed: usize,
    ours: impl Fn(&mut [u8]) -> face::Answer,
    theirs: impl Fn(&mut [u8]) -> Result<usize, Refusal>,
    shown: &[u8],
) -> face::Answer {
    let answer = same_writing(rng, needed, &ours, &theirs, shown);
    let more = needed + 1 + rng.below(EDGE);
    let any = rng.below(needed + 9);
    for size in [more, needed.saturating_sub(1), any] {
        let in_room = same_writing(rng, size, &ours, &theirs, shown);
        let is_refused = answer.number != 0 || size < needed;
        assert_eq!(in_room.number != 0, is_refused, "room {size}");
    }
    answer
}
