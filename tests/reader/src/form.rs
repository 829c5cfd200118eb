//! The forms that refusals 10, 12 and 13 hold a term to, each as a test of a whole text.

use crate::bytes::decimal;
use crate::path::is_target;
use crate::terms::is_unquoted_term;
use crate::value::{is_item_row, value_length};
use crate::vocabulary::{is_level_all, name_length, DISPLAY, HELP_VERB, KEEP, LEVEL, OUTPUT};

/// What a term has to be where it stands.
#[derive(Clone, Copy, Debug, PartialEq, Eq)]
pub enum Form {
    Keep,
    Level,
    /// A source or destination.
    Location,
    /// What display and output take.
    Items,
    Target,
    Property,
    /// A topic of help: a bare name.
    Topic,
}

impl Form {
    /// The form of an option's argument; the option takes one.
    pub(crate) fn of_argument(option: u8) -> Form {
        match option {
            KEEP => Form::Keep,
            LEVEL => Form::Level,
            DISPLAY | OUTPUT => Form::Items,
            _ => Form::Location,
        }
    }

    /// The form of a term after the target, or of help's terms after the options.
    pub(crate) fn of_property(verb: u8) -> Form {
        match verb {
            HELP_VERB => Form::Topic,
            _ => Form::Property,
        }
    }

    /// Whether the whole text is of the form.
    #[inline]
    pub fn accepts(self, text: &[u8]) -> bool {
        match self {
            Form::Keep => decimal(text, u32::MAX).is_some(),
            Form::Level => is_level_all(text) || decimal(text, u32::MAX).is_some(),
            Form::Location => is_unquoted_term(text),
            Form::Items => is_item_row(text),
            Form::Target => is_target(text),
            Form::Property => split_property(text).is_some(),
            Form::Topic => name_length(text) == Some(text.len()),
        }
    }
}

/// The length of a property's name and its operator: a name; or name `=` value; or name `==` value.
#[inline]
pub(crate) fn split_property(text: &[u8]) -> Option<(usize, u8)> {
    let name = name_length(text)?;
    let (operator, value) = match &text[name..] {
        [] => return Some((name, 0)),
        [b'=', b'=', value @ ..] => (2, value),
        [b'=', value @ ..] => (1, value),
        _ => return None,
    };
    (value_length(value)? == value.len()).then_some((name, operator))
}
