//! The two libraries at the same work: seconds of the proved one, seconds of the Rust one.

use crate::timing::seconds_of_both;
use smclp::face;
use clp_reader::{canonical, joiner, reading, reply, reply_writer, tree};
use std::hint::black_box;

const PART: usize = 1 << 16;

pub fn joins(capture: &[u8]) -> (f64, f64) {
    let (mut our_line, mut their_line) = ([0; 1024], [0; 1024]);
    let ours = || {
        let mut state = 0;
        for part in capture.chunks(PART) {
            let mut at = 0;
            while at < part.len() {
                let joined = face::join(state, &mut our_line, &part[at..]);
                state = joined.state;
                at += joined.used as usize;
            }
        }
        keep(face::end(state));
    };
    let theirs = || {
        let mut state = joiner::State::default();
        for part in capture.chunks(PART) {
            let mut at = 0;
            while at < part.len() {
                let step = joiner::join(state, &mut their_line, &part[at..]);
                state = step.state;
                at += step.used;
            }
        }
        keep(joiner::end(state));
    };
    seconds_of_both(ours, theirs)
}

/// An answer is not computed away.
fn keep<T>(answer: T) {
    black_box(answer);
}

/// Each line by both.
fn each(lines: &[Vec<u8>], ours: impl Fn(&[u8], &mut [u8]), theirs: impl Fn(&[u8], &mut [u8])) -> (f64, f64) {
    let (mut our_room, mut their_room) = ([0; 8192], [0; 8192]);
    seconds_of_both(
        || lines.iter().for_each(|line| ours(black_box(line), &mut our_room)),
        || lines.iter().for_each(|line| theirs(black_box(line), &mut their_room)),
    )
}

pub fn reads(lines: &[Vec<u8>]) -> (f64, f64) {
    each(lines, |line, room| keep(face::read(line, room)), |line, room| keep(reading::read(line, room)))
}

pub fn writes(lines: &[Vec<u8>]) -> (f64, f64) {
    each(
        lines,
        |line, room| keep(face::canonical(line, room)),
        |line, room| keep(canonical::write_canonical(line, room)),
    )
}

pub fn checks(bytes: &[u8]) -> (f64, f64) {
    seconds_of_both(|| keep(face::check_tree(black_box(bytes))), || keep(tree::check_tree(black_box(bytes))))
}

pub fn resolves(bytes: &[u8], path: &[u8]) -> (f64, f64) {
    let (mut our_list, mut their_list) = ([0; 512], [0; 512]);
    seconds_of_both(
        || keep(face::resolve(black_box(path), bytes, 0, &mut our_list)),
        || keep(tree::resolve(black_box(path), bytes, 0, &mut their_list)),
    )
}

pub fn reads_reply(text: &[u8]) -> (f64, f64) {
    let (mut our_room, mut their_room) = (vec![0; face::REPLY_RECORDS_BYTES], vec![0; face::REPLY_RECORDS_BYTES]);
    seconds_of_both(
        || keep(face::read_reply(black_box(text), &mut our_room)),
        || keep(reply::read_reply(black_box(text), &mut their_room)),
    )
}

pub fn writes_reply(records: &[u8], text: &[u8]) -> (f64, f64) {
    let (mut our_room, mut their_room) = (vec![0; face::REPLY_BYTES], vec![0; face::REPLY_BYTES]);
    seconds_of_both(
        || keep(face::write_reply(black_box(records), text, &mut our_room)),
        || keep(reply_writer::write_reply(black_box(records), text, &mut their_room)),
    )
}
