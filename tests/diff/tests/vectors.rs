//! Document 02's cases through the proved library: each line's records and its canonical writing, or its refusal; what each text to resolve addresses; what is said of each tree; and each reply, read or written.

use smclp::face;
use clp_reader::canonical::write_canonical;
use clp_vectors::{Addressed, Answer, Asked, Case, Checked, Refused, ToReply, ToResolve};
use clp_vectors::{REQUEST_A, REQUEST_B, REQUEST_C, REQUEST_D, REQUEST_E, ROOM_C, TREE_C};

/// What a call writes at the start of lent room, in the terms of the cases; the rest of the room stays as it was.
fn answer(size: usize, call: impl Fn(&mut [u8]) -> face::Answer) -> Answer {
    let mut room = vec![0xaa; size];
    let face::Answer { number, value } = call(&mut room);
    let written = if number == 0 { value as usize } else { 0 };
    assert!(room[written..].iter().all(|&byte| byte == 0xaa));
    room.truncate(written);
    match number {
        0 => Ok(room),
        _ => Err(refused(number, value)),
    }
}

fn refused(number: u64, place: u64) -> Refused {
    Refused { number: number.try_into().unwrap(), place: place.try_into().unwrap() }
}

fn reading(line: &[u8]) -> Answer {
    answer(face::READING_BYTES, |room| face::read(line, room))
}

fn writing(line: &[u8]) -> Answer {
    answer(face::CANONICAL_BYTES, |room| face::canonical(line, room))
}

#[test]
fn lines_of_request_a() {
    let cases = REQUEST_A.cases(3);
    for case in &cases {
        let line = case.bytes(0);
        assert_eq!(reading(&line), case.reading(1), "{}: {}", case.at, line.escape_ascii());
        assert_eq!(writing(&line), case.writing(2), "{}: {}", case.at, line.escape_ascii());
    }
}

/// The case has no writing: it is the independent reader's, and of a refused line that refusal.
fn check_line(case: &Case, line: &[u8], expected: Answer) {
    assert_eq!(reading(line), expected, "{}: {}", case.at, line.escape_ascii());
    let theirs = match expected {
        Ok(_) => Ok(written(line)),
        refused => refused,
    };
    assert_eq!(writing(line), theirs, "{}: {}", case.at, line.escape_ascii());
}

#[test]
fn lines_of_request_b() {
    for case in &REQUEST_B.cases(2) {
        check_line(case, &case.bytes(0), case.reading(1));
    }
}

#[test]
fn lines_and_texts_of_request_c() {
    for case in &REQUEST_C.cases(3) {
        let input = case.bytes(1);
        match case.word(0, &["line", "text"]) {
            "line" => check_line(case, &input, case.reading(2)),
            _ => {
                let asked = ToResolve { text: input, default_target: 0, room: ROOM_C };
                assert_eq!(addressed(&asked, TREE_C), case.addressed(2), "{}: {}", case.at, asked.text.escape_ascii());
            }
        }
    }
}

#[test]
fn trees_of_request_d() {
    for case in &REQUEST_D.cases(5) {
        let tree = case.tree(1);
        match case.asked() {
            Asked::Check(expected) => assert_eq!(checked(&tree), expected, "{}", case.at),
            Asked::Resolve(asked, expected) => assert_eq!(addressed(&asked, &tree), expected, "{}", case.at),
        }
    }
}

/// A case without a room of its own has enough for every reply; then exactly what the answer needs, where it is not refused.
#[test]
fn replies_of_request_e() {
    let mut met = [0; 2];
    for case in &REQUEST_E.cases(5) {
        let row = case.asked_reply();
        let (which, size) = match &row.asked {
            ToReply::Read(_) => (0, face::REPLY_RECORDS_BYTES),
            ToReply::Write { .. } => (1, face::REPLY_BYTES),
        };
        let needed = row.answer.as_ref().map_or(0, Vec::len);
        for size in [row.room.unwrap_or(size), row.room.unwrap_or(needed)] {
            let answer = answer(size, |room| match &row.asked {
                ToReply::Read(reply) => face::read_reply(reply, room),
                ToReply::Write { records, text } => face::write_reply(records, text, room),
            });
            assert_eq!(answer, row.answer, "{}, room {size}", case.at);
        }
        met[which] += 1;
    }
    assert_eq!(met, [117, 78]);
}

/// What a tree's check answers, in the terms of the cases.
fn checked(tree: &[u8]) -> Checked {
    match face::check_tree(tree) {
        face::Answer { number: 0, value } => {
            assert_eq!(value, 0);
            Ok(())
        }
        face::Answer { number, value } => Err(refused(number, value)),
    }
}

/// What a text addresses in a tree, in the terms of the cases.
fn addressed(asked: &ToResolve, tree: &[u8]) -> Addressed {
    let mut list = vec![0xaaaa; asked.room];
    let face::Answer { number, value } = face::resolve(&asked.text, tree, asked.default_target, &mut list);
    let count = if number == 0 && value != face::NONE { value as usize } else { 0 };
    assert!(list[count..].iter().all(|&number| number == 0xaaaa));
    list.truncate(count);
    match (number, value) {
        (0, face::NONE) => Ok(None),
        (0, _) => Ok(Some(list)),
        _ => Err(refused(number, value)),
    }
}

/// The independent reader's writing of a line that is read.
fn written(line: &[u8]) -> Vec<u8> {
    let mut room = vec![0; face::CANONICAL_BYTES];
    let length = write_canonical(line, &mut room).expect("it is read");
    room.truncate(length);
    room
}
