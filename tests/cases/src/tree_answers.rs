//! What the independent reader answers to the input of `treecases`, in that program's words.

use clp_reader::tree::{check_tree, full_path, resolve, Resolved};

use crate::stored::{answered, put_runs, refused, Bytes};

/// The answers to a whole input that is not cut.
pub fn answers(input: &[u8]) -> Vec<u8> {
    let mut text = Vec::new();
    let mut input = Bytes(input);
    while !input.0.is_empty() {
        let tree_length = input.number();
        let cases_length = input.number();
        let tree = input.take(tree_length);
        let mut cases = Bytes(input.take(cases_length));
        match check_tree(tree) {
            Ok(_) => text.extend(b"good\n"),
            Err(refusal) => text.extend(format!("bad {} \n", refusal.place).bytes()),
        }
        while !cases.0.is_empty() {
            let kind = cases.take(1)[0];
            let first = cases.number();
            let second = cases.number();
            let length = cases.number();
            let target = cases.take(length);
            match kind {
                1 => path_answer(tree, first, second, &mut text),
                _ => text.extend(resolved_answer(target, tree, first, second).bytes()),
            }
            text.push(b'\n');
        }
    }
    text
}

/// The answer, what the room then holds, and with how many of its dots it still ends.
fn path_answer(tree: &[u8], node: usize, size: usize, text: &mut Vec<u8>) {
    let mut room = vec![b'.'; size];
    let answer = answered(full_path(tree, node, &mut room));
    text.extend(answer.bytes());
    let dots = room.iter().rev().take_while(|&&byte| byte == b'.').count();
    text.extend(&room[..size - dots]);
    text.extend(format!(" {dots} ").bytes());
}

/// The answer, and what the list then holds as runs of equal numbers.
fn resolved_answer(target: &[u8], tree: &[u8], default: usize, size: usize) -> String {
    let mut list = vec![7u16; size];
    let mut answer = match resolve(target, tree, default, &mut list) {
        Ok(Resolved::Session) => "session ".to_string(),
        Ok(Resolved::Nodes(count)) => format!("nodes {count} "),
        Err(refusal) => refused(refusal),
    };
    put_runs(&list, &mut answer);
    answer
}
