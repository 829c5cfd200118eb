//! The forms of terms.

/// What a term has to be where it stands.
#[derive(Clone, Copy, Debug, PartialEq, Eq)]
pub enum Form {
    Keep,
    Level,
    /// A source or destination.
    Location,
    /// What display and output take.
    Items,
    Target,
    Property,
    /// A topic of help.
    Topic,
}

pub const FORMS: [Form; 7] = [
    Form::Keep,
    Form::Level,
    Form::Location,
    Form::Items,
    Form::Target,
    Form::Property,
    Form::Topic,
];
