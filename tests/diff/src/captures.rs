//! Captures: joining in any cuts, bad states and buffers, and what a lister gives.

use crate::lent::{bytes, Lent};
use crate::lines::refused;
use smclp::face;
use clp_gen::{capture, Rng};
use clp_reader::clplist::list_capture;
use clp_reader::joiner::{end, join, Ended, Joined, State, Step};

/// The state as the one number of the C face.
fn number_of(state: State) -> u64 {
    u64::from(state.held)
        + 2048 * u64::from(state.waiting)
        + 4096 * u64::from(state.after_cr)
        + 8192 * u64::from(state.over)
}

pub fn compare(rng: &mut Rng) {
    let capture = capture::capture(rng, 12);
    let cuts = capture::cuts(rng, capture.len());
    compare_joining(rng, &capture, &cuts);
    compare_listing(&capture, &cuts);
    compare_odd_call(rng, &capture);
}

/// The parts of a capture, by their lengths.
fn parts<'c>(capture: &'c [u8], cuts: &'c [usize]) -> impl Iterator<Item = &'c [u8]> {
    let mut rest = capture;
    cuts.iter().map(move |&length| {
        let (part, later) = rest.split_at(length);
        rest = later;
        part
    })
}

fn compare_joining(rng: &mut Rng, capture: &[u8], cuts: &[usize]) {
    let (mut number, mut state) = (0, State::default());
    let mut left = bytes(rng, 1024);
    let mut right = left.room().to_vec();
    for part in parts(capture, cuts) {
        let mut at = 0;
        while at < part.len() {
            let answer = face::join(number, left.room(), &part[at..]);
            let step = join(state, &mut right, &part[at..]);
            state = step.state;
            number = number_of(state);
            assert_eq!(answer, joined(step), "{}", capture.escape_ascii());
            assert_eq!(left.wrote(1024), right, "{}", capture.escape_ascii());
            at += step.used;
        }
    }
    compare_end(number, state);
}

/// A step of the independent joiner in the face's terms.
fn joined(step: Step) -> face::Joined {
    let answer = match step.joined {
        Joined::More => face::Answer { number: 0, value: face::NONE },
        Joined::Line(length) => face::Answer { number: 0, value: length as u64 },
        Joined::Refused(refusal) => refused(refusal),
    };
    face::Joined {
        number: answer.number,
        value: answer.value,
        used: step.used as u64,
        state: number_of(step.state),
    }
}

/// Nothing used, and the state as it was.
fn no_call(state: u64) -> face::Joined {
    face::Joined { number: 19, value: 0, used: 0, state }
}

fn compare_end(number: u64, state: State) {
    let expected = match end(state) {
        Ok(Ended::Nothing) => face::Answer { number: 0, value: 0 },
        Ok(Ended::Cut) => face::Answer { number: 0, value: 1 },
        Err(refusal) => refused(refusal),
    };
    assert_eq!(face::end(number), expected);
}

/// The printed records of a capture, in cuts, are those of the whole capture.
fn compare_listing(capture: &[u8], cuts: &[usize]) {
    let (mut state, mut buffer, mut room) = (0, [0; 1024], [0; 399]);
    let mut text = Vec::new();
    for part in parts(capture, cuts) {
        let mut at = 0;
        while at < part.len() {
            let answer = face::list(state, &mut buffer, &part[at..], &mut room);
            assert_eq!(answer.number, 0);
            state = answer.state;
            if answer.value != face::NONE {
                print(&room[..answer.value as usize], &mut text);
            }
            at += answer.used as usize;
        }
    }
    let answer = face::list_end(state, &mut room);
    assert_eq!(answer.number, 0);
    print(&room[..answer.value as usize], &mut text);
    assert_eq!(text, list_capture(capture), "{}", capture.escape_ascii());
}

fn print(records: &[u8], text: &mut Vec<u8>) {
    let mut room = [0; 4096];
    let answer = face::records_text(records, &mut room);
    assert_eq!(answer.number, 0);
    text.extend_from_slice(&room[..answer.value as usize]);
}

/// A call with any state, any length of buffer and any length of room: refused with nothing changed, or the same.
fn compare_odd_call(rng: &mut Rng, capture: &[u8]) {
    let state = State {
        held: rng.pick(&[0, 1, 500, 1023, 1024, 1025, 2047]).to_owned(),
        over: rng.percent(30),
        waiting: rng.percent(30),
        after_cr: rng.percent(30),
    };
    let length = *rng.pick(&[0, 1023, 1024, 1024, 1024, 1025]);
    let mut left = bytes(rng, length);
    let mut right = left.room().to_vec();
    let answer = face::join(number_of(state), left.room(), capture);
    assert_eq!(answer, joined(join(state, &mut right, capture)), "{state:?} {length}");
    assert_eq!(left.wrote(length), right);
    compare_end(number_of(state), state);
    small_room(rng, capture);
    no_state(capture);
}

/// A lister's room below 399 bytes is refused before anything is used.
fn small_room(rng: &mut Rng, capture: &[u8]) {
    let size = rng.below(399);
    let (mut room, mut buffer): (Lent<u8>, Lent<u8>) = (bytes(rng, size), bytes(rng, 1024));
    assert_eq!(face::list(5, buffer.room(), capture, room.room()), no_call(5));
    room.unchanged();
    buffer.unchanged();
}

/// A number that is no state's.
fn no_state(capture: &[u8]) {
    for number in [1025, 16384, u64::MAX] {
        let mut buffer = [7; 1024];
        assert_eq!(face::join(number, &mut buffer, capture), no_call(number));
        assert_eq!(buffer, [7; 1024]);
        assert_eq!(face::end(number), face::Answer { number: 19, value: 0 });
    }
}
