//! "The command": a line's reading as records, or its refusal.

use crate::beginning::longest_beginning;
use crate::form::{split_property, Form};
use crate::records::{Gathered, Record};
use crate::refusal::{
    Refusal, ARGUMENT_MALFORMED, ARGUMENT_MISSING, NOT_FOR_VERB, NO_SUCH_OPTION, NO_SUCH_VERB,
    OPTION_REPEATED, OPTION_TOO_LATE, PROPERTY_MALFORMED, ROOM_TOO_SMALL, TARGET_MALFORMED,
    TOO_MANY_PROPERTIES,
};
use crate::support::{options_of, Options};
use crate::terms::{find_terms, Term, Terms};
use crate::vocabulary::{option_number, takes_argument, verb_number, HELP_VERB};
use crate::Part;

const MOST_PROPERTIES: usize = 32;

/// The answer for a line that is read: the records' length, and the target's own part.
#[derive(Clone, Copy, Debug, PartialEq, Eq)]
pub struct Reading {
    pub length: usize,
    /// Empty, at position 0, where the line has no target.
    pub target: Part,
}

/// Reads a line into records at the start of lent room.
pub fn read(line: &[u8], room: &mut [u8]) -> Result<Reading, Refusal> {
    let mut gathered = Gathered::new();
    let target = gather(line, &mut gathered)?;
    let records = gathered.as_bytes();
    let answer = room.get_mut(..records.len()).ok_or(ROOM_TOO_SMALL)?;
    answer.copy_from_slice(records);
    Ok(Reading {
        length: records.len(),
        target,
    })
}

/// The target's own part, empty at position 0 where there is none or the line is refused.
pub fn target_part(line: &[u8]) -> Part {
    gather(line, &mut Gathered::new()).unwrap_or_default()
}

/// Gathers the line's records, and gives the target's part.
pub(crate) fn gather(line: &[u8], gathered: &mut Gathered) -> Result<Part, Refusal> {
    let mut terms = Terms::new();
    find_terms(line, &mut terms)?;
    let Some((first, after_verb)) = terms.as_slice().split_first() else {
        gathered.push(Record::Blank);
        return Ok(Part::default());
    };
    let verb = verb_number(first.raw(line)).ok_or_else(|| refuse(NO_SUCH_VERB, *first))?;
    gathered.push(Record::Verb { number: verb });
    let after_options = read_options(line, after_verb, options_of(verb), gathered)?;
    let (target, others) = read_target(line, after_options, verb, gathered)?;
    read_properties(line, others, verb, gathered)?;
    Ok(target)
}

fn refuse(number: u8, term: Term) -> Refusal {
    Refusal::new(number, term.start.into())
}

/// The refusal of a term that is not of its form: its place is the first byte that can't stay.
fn refuse_form(number: u8, term: Term, form: Form, line: &[u8]) -> Refusal {
    let can_stay = longest_beginning(form, term.raw(line));
    Refusal::new(number, usize::from(term.start) + can_stay)
}

/// A term's first byte is never escaped or quoted, so a `-` there is bare.
fn starts_with_dash(line: &[u8], term: Term) -> bool {
    line[usize::from(term.start)] == b'-'
}

/// An absent part has length 0 and the position after its term.
fn absent_after(term: Term) -> Part {
    Part {
        position: term.end,
        length: 0,
    }
}

/// Reads the options with their arguments, and gives the terms after them; 7 comes before 20
/// before 8.
fn read_options<'t>(
    line: &[u8],
    terms: &'t [Term],
    had: Options,
    gathered: &mut Gathered,
) -> Result<&'t [Term], Refusal> {
    let mut rest = terms;
    let mut given = Options::NONE;
    while let Some((&term, after)) = rest.split_first() {
        if !starts_with_dash(line, term) {
            break;
        }
        let name = &term.raw(line)[1..];
        let number = option_number(name).ok_or_else(|| refuse(NO_SUCH_OPTION, term))?;
        if !had.has(number) {
            return Err(refuse(NOT_FOR_VERB, term));
        }
        if given.has(number) {
            return Err(refuse(OPTION_REPEATED, term));
        }
        given.add(number);
        let mut argument = absent_after(term);
        rest = after;
        if takes_argument(number) {
            argument = read_argument(line, number, after.first())?;
            rest = &after[1..];
        }
        gathered.push(Record::Option { number, argument });
    }
    Ok(rest)
}

/// The option's argument: there, no option itself, and of its form.
fn read_argument(line: &[u8], option: u8, next: Option<&Term>) -> Result<Part, Refusal> {
    let term = *next.ok_or_else(|| Refusal::new(ARGUMENT_MISSING, line.len()))?;
    if starts_with_dash(line, term) {
        return Err(refuse(ARGUMENT_MISSING, term));
    }
    let form = Form::of_argument(option);
    let is_of_form = match form {
        // The scan of the line has seen it already.
        Form::Location => !term.has_quote,
        _ => form.accepts(term.raw(line)),
    };
    if is_of_form {
        Ok(term.part())
    } else {
        Err(refuse_form(ARGUMENT_MALFORMED, term, form, line))
    }
}

/// Reads the target, if the next term is one, and gives its part and the terms after it.
fn read_target<'t>(
    line: &[u8],
    terms: &'t [Term],
    verb: u8,
    gathered: &mut Gathered,
) -> Result<(Part, &'t [Term]), Refusal> {
    match terms.split_first() {
        Some((&term, after)) if verb != HELP_VERB && !term.has_bare_equals => {
            if !Form::Target.accepts(term.raw(line)) {
                return Err(refuse_form(TARGET_MALFORMED, term, Form::Target, line));
            }
            let part = term.part();
            gathered.push(Record::Target { part });
            Ok((part, after))
        }
        _ => Ok((Part::default(), terms)),
    }
}

/// Reads all other terms as properties, or as topics of help; 11 comes before 14 before 13.
fn read_properties(
    line: &[u8],
    terms: &[Term],
    verb: u8,
    gathered: &mut Gathered,
) -> Result<(), Refusal> {
    let form = Form::of_property(verb);
    for (index, &term) in terms.iter().enumerate() {
        if starts_with_dash(line, term) {
            return Err(refuse(OPTION_TOO_LATE, term));
        }
        if index == MOST_PROPERTIES {
            return Err(refuse(TOO_MANY_PROPERTIES, term));
        }
        let property = property_of(line, term, form);
        gathered.push(property.ok_or_else(|| refuse_form(PROPERTY_MALFORMED, term, form, line))?);
    }
    Ok(())
}

/// The record of a term that is a property, or with help a topic.
fn property_of(line: &[u8], term: Term, form: Form) -> Option<Record> {
    let (name_bytes, operator) = split_property(term.raw(line))?;
    let start = usize::from(term.start);
    let name = Part::between(start, start + name_bytes);
    let value = match operator {
        0 => absent_after(term),
        _ if form == Form::Topic => return None,
        // The operator's number is also its length.
        _ => Part::between(start + name_bytes + usize::from(operator), term.end.into()),
    };
    Some(Record::Property {
        name,
        operator,
        value,
    })
}
