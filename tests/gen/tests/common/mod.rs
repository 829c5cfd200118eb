//! What the tests of this crate share: a line judged term by term by document 01's table, anew and
//! by the generator's own tables, so that the term is known in which a place must lie.
#![allow(dead_code)]

use std::collections::BTreeSet;
use std::ops::Range;

use clp_gen::form::Form as GeneratedForm;
use clp_gen::options::{is_excluded, option_of, VERBS};
use clp_reader::form::Form;
use clp_reader::terms::{next_term, TermReader};

/// The verb of a line that has one, in lower case.
pub fn verb_of(line: &[u8]) -> Option<&'static str> {
    let part = next_term(line, 0).ok()??;
    let is = |verb: &&str| part.of(line).eq_ignore_ascii_case(verb.as_bytes());
    VERBS.into_iter().find(is)
}

/// Where the terms stand of a line that rows 1 to 5 don't refuse.
pub fn terms_of(line: &[u8]) -> Vec<Range<usize>> {
    let mut reader = TermReader::new(line);
    let parts = std::iter::from_fn(|| reader.next_term().ok().flatten());
    let ends = parts.map(|part| (part.position.into(), part.length.into()));
    ends.map(|(start, length): (usize, usize)| start..start + length)
        .collect()
}

/// The reader's form for the generator's.
pub fn form_of(form: GeneratedForm) -> Form {
    match form {
        GeneratedForm::Keep => Form::Keep,
        GeneratedForm::Level => Form::Level,
        GeneratedForm::Location => Form::Location,
        GeneratedForm::Items => Form::Items,
        GeneratedForm::Target => Form::Target,
        GeneratedForm::Property => Form::Property,
        GeneratedForm::Topic => Form::Topic,
    }
}

/// The number that a term not of this form is refused as.
pub fn number_of(form: Form) -> u8 {
    match form {
        Form::Keep | Form::Level | Form::Location | Form::Items => 10,
        Form::Target => 12,
        Form::Property | Form::Topic => 13,
    }
}

/// Where a text's signs begin, each with its byte where that is bare: a GRAVE and the byte that it
/// escapes are one sign.
pub fn signs(text: &[u8]) -> Vec<(usize, Option<u8>)> {
    let mut signs = Vec::new();
    let (mut at, mut in_quote) = (0, false);
    while let Some(&byte) = text.get(at) {
        let escapable: &[u8] = if in_quote { b"`\"" } else { b" `\",=-/\\.()*" };
        let next = text.get(at + 1);
        let escapes = byte == b'`' && next.is_some_and(|next| escapable.contains(next));
        let is_bare = !escapes && (!in_quote || byte == b'"');
        signs.push((at, is_bare.then_some(byte)));
        in_quote ^= byte == b'"';
        at += 1 + usize::from(escapes);
    }
    signs
}

pub fn has_bare_equals(text: &[u8]) -> bool {
    signs(text).iter().any(|&(_, bare)| bare == Some(b'='))
}

/// A term that is refused: its number, where it stands, and for 10, 12 and 13 the form that it is
/// not of.
pub struct RefusedTerm {
    pub number: u8,
    pub term: Range<usize>,
    pub form: Option<Form>,
}

/// The first term that is refused by rows 6 to 14 and 20, terms left to right, in a line that rows
/// 1 to 5 don't refuse.
pub fn refused_term(line: &[u8]) -> Option<RefusedTerm> {
    let refused = |number, term: &Range<usize>| {
        let (term, form) = (term.clone(), None);
        Some(RefusedTerm { number, term, form })
    };
    let not_of = |form, term: &Range<usize>| {
        let (number, term, form) = (number_of(form), term.clone(), Some(form));
        Some(RefusedTerm { number, term, form })
    };
    let is_option = |term: &Range<usize>| line[term.start] == b'-';
    let terms = terms_of(line);
    let (first, mut rest) = terms.split_first()?;
    let Some(verb) = verb_of(line) else {
        return refused(6, first);
    };
    let mut given = BTreeSet::new();
    while let Some((term, after)) = rest.split_first().filter(|(term, _)| is_option(term)) {
        rest = after;
        let Some(row) = option_of(&line[term.clone()]) else {
            return refused(7, term);
        };
        if is_excluded(verb, &line[term.clone()]) {
            return refused(20, term);
        }
        if !given.insert(row.long) {
            return refused(8, term);
        }
        let Some(form) = row.argument.map(form_of) else {
            continue;
        };
        match rest.split_first() {
            None => return refused(9, &(line.len()..line.len())),
            Some((argument, _)) if is_option(argument) => return refused(9, argument),
            Some((argument, _)) if !form.accepts(&line[argument.clone()]) => {
                return not_of(form, argument);
            }
            Some((_, after)) => rest = after,
        }
    }
    let is_target = |term: &Range<usize>| !has_bare_equals(&line[term.clone()]);
    match rest.split_first() {
        Some((term, after)) if verb != "help" && is_target(term) => {
            if !Form::Target.accepts(&line[term.clone()]) {
                return not_of(Form::Target, term);
            }
            rest = after;
        }
        _ => {}
    }
    let form = if verb == "help" {
        Form::Topic
    } else {
        Form::Property
    };
    for (index, term) in rest.iter().enumerate() {
        if is_option(term) {
            return refused(11, term);
        }
        if index == 32 {
            return refused(14, term);
        }
        if !form.accepts(&line[term.clone()]) {
            return not_of(form, term);
        }
    }
    None
}
