//! Each line of document 02's cases: its reading, its canonical writing, and which lines are one
//! command; each text to resolve; each tree; and each reply, read or written.

use clp_reader::canonical::write_canonical;
use clp_reader::reading::read;
use clp_reader::refusal::Refusal;
use clp_reader::reply::{read_reply, MOST_REPLY_BYTES};
use clp_reader::reply_items::{items_of_records, items_of_reply};
use clp_reader::reply_writer::write_reply;
use clp_reader::same::same_command;
use clp_reader::tree::{check_tree, resolve, Resolved};
use clp_vectors::{Addressed, Answer, Asked, Case, Checked, Refused, ToReply, ToResolve};
use clp_vectors::{REQUEST_A, REQUEST_B, REQUEST_C, REQUEST_D, REQUEST_E, ROOM_C, TREE_C};

/// What a call writes at the start of lent room, in the terms of the cases.
fn answer(call: impl Fn(&mut [u8]) -> Result<usize, Refusal>) -> Answer {
    answer_in(4096, call)
}

/// The same with room of a size.
fn answer_in(size: usize, call: impl Fn(&mut [u8]) -> Result<usize, Refusal>) -> Answer {
    let mut room = vec![0xaa; size];
    let called = call(&mut room);
    let (written, rest) = room.split_at(*called.as_ref().unwrap_or(&0));
    assert!(rest.iter().all(|&byte| byte == 0xaa));
    match called {
        Ok(_) => Ok(written.to_vec()),
        Err(refusal) => Err(refused(refusal)),
    }
}

fn refused(Refusal { number, place }: Refusal) -> Refused {
    Refused { number, place }
}

fn reading(line: &[u8]) -> Answer {
    answer(|room| read(line, room).map(|reading| reading.length))
}

fn writing(line: &[u8]) -> Answer {
    answer(|room| write_canonical(line, room))
}

#[test]
fn lines_of_request_a() {
    let cases = REQUEST_A.cases(3);
    for case in &cases {
        let line = case.bytes(0);
        assert_eq!(reading(&line), case.reading(1), "{}", case.at);
        assert_eq!(writing(&line), case.writing(2), "{}", case.at);
    }
}

/// A refused line's writing is that refusal; any other reads back as the same command.
fn check_line(case: &Case, line: &[u8], expected: Answer) {
    assert_eq!(reading(line), expected, "{}", case.at);
    match writing(line) {
        Ok(written) => assert!(same_command(line, &written), "{}", case.at),
        refused => assert_eq!(refused, expected, "{}", case.at),
    }
}

#[test]
fn lines_of_request_b() {
    for case in &REQUEST_B.cases(2) {
        check_line(case, &case.bytes(0), case.reading(1));
    }
}

#[test]
fn lines_and_texts_of_request_c() {
    let mut met = [0; 2];
    for case in &REQUEST_C.cases(3) {
        let input = case.bytes(1);
        match case.word(0, &["line", "text"]) {
            "line" => {
                check_line(case, &input, case.reading(2));
                met[0] += 1;
            }
            _ => {
                let asked = ToResolve { text: input, default_target: 0, room: ROOM_C };
                assert_eq!(addressed(&asked, TREE_C), case.addressed(2), "{}", case.at);
                met[1] += 1;
            }
        }
    }
    assert_eq!(met, [213, 22]);
}

#[test]
fn trees_of_request_d() {
    let mut met = [0; 2];
    for case in &REQUEST_D.cases(5) {
        let tree = case.tree(1);
        match case.asked() {
            Asked::Check(expected) => {
                assert_eq!(checked(&tree), expected, "{}", case.at);
                met[0] += 1;
            }
            Asked::Resolve(asked, expected) => {
                assert_eq!(addressed(&asked, &tree), expected, "{}", case.at);
                met[1] += 1;
            }
        }
    }
    assert_eq!(met, [43, 8]);
}

/// What a tree's check answers, in the terms of the cases.
fn checked(tree: &[u8]) -> Checked {
    match check_tree(tree) {
        Ok(count) => {
            assert_eq!(22 * count, tree.len());
            Ok(())
        }
        Err(refusal) => Err(refused(refusal)),
    }
}

/// What a text addresses in a tree, in the terms of the cases.
fn addressed(asked: &ToResolve, tree: &[u8]) -> Addressed {
    let mut list = vec![0xaaaa; asked.room];
    let answer = resolve(&asked.text, tree, asked.default_target, &mut list);
    let count = match answer {
        Ok(Resolved::Nodes(count)) => count,
        _ => 0,
    };
    assert!(list[count..].iter().all(|&number| number == 0xaaaa));
    match answer {
        Ok(Resolved::Session) => Ok(None),
        Ok(Resolved::Nodes(_)) => {
            list.truncate(count);
            Ok(Some(list))
        }
        Err(refusal) => Err(refused(refusal)),
    }
}

#[test]
fn replies_of_request_e() {
    let mut met = [0; 2];
    for case in &REQUEST_E.cases(5) {
        let row = case.asked_reply();
        match &row.asked {
            ToReply::Read(reply) => {
                let size = row.room.unwrap_or(3 * reply.len());
                let read = answer_in(size, |room| read_reply(reply, room));
                assert_eq!(read, row.answer, "{}", case.at);
                met[0] += 1;
            }
            ToReply::Write { records, text } => {
                let size = row.room.unwrap_or(MOST_REPLY_BYTES);
                let written = answer_in(size, |room| write_reply(records, text, room));
                assert_eq!(written, row.answer, "{}", case.at);
                if let Ok(reply) = written {
                    assert_eq!(items_of_reply(&reply), Ok(items_of_records(records, text)), "{}", case.at);
                }
                met[1] += 1;
            }
        }
    }
    assert_eq!(met, [117, 78]);
}

/// Two accepted lines are one command exactly where the file gives them one writing.
#[test]
fn commands_of_request_a() {
    let cases = REQUEST_A.cases(3);
    let mut one_command = 0;
    for left in &cases {
        for right in &cases {
            let expected = left.writing(2).is_ok() && left.writing(2) == right.writing(2);
            let same = same_command(&left.bytes(0), &right.bytes(0));
            assert_eq!(same, expected, "{} and {}", left.at, right.at);
            one_command += usize::from(same && left.at != right.at);
        }
    }
    assert!(one_command > 100, "{one_command}");
}
