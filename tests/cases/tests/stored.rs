//! What `crates/treecases` and `crates/replycases` have stored is what is generated and what the
//! independent reader answers.

use std::path::Path;

use clp_cases::{reply, reply_answers, tree, tree_answers};

fn stored(program: &str, name: &str) -> Vec<u8> {
    let crates = Path::new(env!("CARGO_MANIFEST_DIR")).join("../../crates");
    std::fs::read(crates.join(program).join(name)).expect("a stored file of that program")
}

#[test]
fn the_stored_input_is_the_generated_one() {
    assert!(
        stored("treecases", "stdin") == tree::input(),
        "write it anew: clp_cases stdin"
    );
    assert!(
        stored("replycases", "stdin") == reply::input(),
        "write it anew: clp_cases replies"
    );
}

#[test]
fn the_stored_answers_are_the_independent_readers() {
    let answers = tree_answers::answers(&stored("treecases", "stdin"));
    assert!(
        stored("treecases", "stdout") == answers,
        "clp_cases stdout answers otherwise"
    );
    let answers = reply_answers::answers(&stored("replycases", "stdin"));
    assert!(
        stored("replycases", "stdout") == answers,
        "clp_cases replies-answers answers otherwise"
    );
}
