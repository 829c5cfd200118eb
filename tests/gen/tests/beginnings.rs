//! Each form's one pass held against a search by brute force: every beginning of good texts that
//! reach the form's limits, followed by each byte of a small alphabet.

mod common;

use clp_gen::beginnings::{good_texts, lines, texts};
use clp_gen::form::Form;
use clp_reader::beginning::longest_beginning;
use clp_reader::reading::read;
use clp_reader::refusal::Refusal;
use clp_reader::search::Search;
use clp_reader::terms::{check_line, term_at};
use common::{form_of, has_bare_equals, number_of, terms_of};

/// What may stand after a byte that can't stay; it changes nothing.
const TAILS: [&str; 5] = ["a", "1", "\"", "=b)", "`/.,"];

/// Whether the text can be a term's beginning: no bare space ends the term before.
fn is_in_one_term(text: &[u8]) -> bool {
    text.is_empty() || term_at(text, 0) == Some(0..text.len())
}

/// Runs the form's cases, and tells how many texts, refused ones, and lines they were.
fn check(form: Form) -> [usize; 3] {
    let mut met = [0; 3];
    let judged = form_of(form);
    let mut search = Search::new(|text: &[u8]| judged.accepts(text));
    for text in texts(form).iter().filter(|text| is_in_one_term(text)) {
        let shown = text.escape_ascii();
        let expected = search.longest_beginning(text);
        assert_eq!(
            longest_beginning(judged, text),
            expected,
            "{form:?} {shown}"
        );
        let is_accepted = judged.accepts(text);
        if expected < text.len() {
            assert!(!is_accepted, "{form:?} {shown}");
            for tail in TAILS {
                let longer = [text, tail.as_bytes()].concat();
                let with_tail = longest_beginning(judged, &longer);
                assert_eq!(with_tail, expected, "{form:?} {shown} and {tail}");
            }
        }
        met[0] += 1;
        met[1] += usize::from(!is_accepted);
        for line in lines(form, text) {
            met[2] += usize::from(check_in_line(form, text, &line, expected));
        }
    }
    met
}

/// The text as the last term of a line: accepted, or refused at its place. False where the term is
/// not read as that form, or a row before it refuses the line.
fn check_in_line(form: Form, text: &[u8], line: &[u8], expected: usize) -> bool {
    let judged = form_of(form);
    let is_first = line.len() - text.len() == "set ".len();
    let is_other = match form {
        Form::Target => has_bare_equals(text),
        Form::Property => is_first && !has_bare_equals(text),
        _ => false,
    };
    if text.is_empty() || text[0] == b'-' || is_other || check_line(line).is_err() {
        return false;
    }
    let start = line.len() - text.len();
    assert_eq!(terms_of(line).last(), Some(&(start..line.len())));
    let answer = read(line, &mut [0; 399]).map(|_| ());
    let refused = Refusal {
        number: number_of(judged),
        place: start + expected,
    };
    let is_accepted = judged.accepts(text);
    let expected = if is_accepted { Ok(()) } else { Err(refused) };
    assert_eq!(answer, expected, "{}", line.escape_ascii());
    true
}

/// The counts are written out, so that no case goes missing unseen.
fn check_all(form: Form, counts: [usize; 3]) {
    for text in good_texts(form) {
        assert!(form_of(form).accepts(text.as_bytes()), "{text}");
    }
    assert_eq!(check(form), counts, "texts, refused ones, lines");
}

#[test]
fn keep() {
    check_all(Form::Keep, [1317, 1063, 2466]);
}

#[test]
fn level() {
    check_all(Form::Level, [1573, 1313, 2946]);
}

#[test]
fn source_and_destination() {
    check_all(Form::Location, [1431, 83, 2694]);
}

#[test]
fn display_and_output() {
    check_all(Form::Items, [10417, 7352, 33700]);
}

#[test]
fn target() {
    check_all(Form::Target, [8443, 7383, 15310]);
}

#[test]
fn property() {
    check_all(Form::Property, [7721, 5874, 15077]);
}

#[test]
fn topic() {
    check_all(Form::Topic, [2363, 1193, 4430]);
}
