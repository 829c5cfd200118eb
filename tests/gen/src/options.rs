//! The options: names and arguments as in Table 14 of DSP0214, and which verbs have each, as in its
//! Table 15 (document 02, request b).

use crate::form::Form;
use Verbs::{All, AllBut, These};

pub const VERBS: [&str; 13] = [
    "cd", "create", "delete", "dump", "exit", "help", "load", "reset", "set", "show", "start",
    "stop", "version",
];

/// An option's names, what its argument is, and the verbs that have it.
pub struct OptionRow {
    pub long: &'static str,
    pub short: &'static str,
    /// The form of its argument, none where it takes none.
    pub argument: Option<Form>,
    verbs: Verbs,
}

/// The verbs that have an option.
enum Verbs {
    All,
    AllBut(&'static str),
    These(&'static [&'static str]),
}

const FORCED: &[&str] = &[
    "delete", "dump", "load", "reset", "set", "show", "start", "stop",
];

/// An option without a short name has its long one twice.
const OPTIONS: [OptionRow; 12] = [
    row("all", "a", None, These(&["show"])),
    row(
        "destination",
        "destination",
        Some(Form::Location),
        These(&["dump"]),
    ),
    row("display", "d", Some(Form::Items), These(&["show"])),
    row("examine", "x", None, All),
    row("force", "f", None, These(FORCED)),
    row("help", "h", None, All),
    row("keep", "k", Some(Form::Keep), All),
    row("level", "l", Some(Form::Level), These(&["show"])),
    row("output", "o", Some(Form::Items), All),
    row("source", "source", Some(Form::Location), These(&["load"])),
    row("version", "v", None, All),
    row("wait", "w", None, AllBut("exit")),
];

const fn row(
    long: &'static str,
    short: &'static str,
    argument: Option<Form>,
    verbs: Verbs,
) -> OptionRow {
    OptionRow {
        long,
        short,
        argument,
        verbs,
    }
}

impl OptionRow {
    fn is_for(&self, verb: &str) -> bool {
        match self.verbs {
            All => true,
            AllBut(other) => verb != other,
            These(verbs) => verbs.contains(&verb),
        }
    }
}

/// The options that a verb has.
pub fn options_of(verb: &str) -> Vec<&'static OptionRow> {
    OPTIONS.iter().filter(|row| row.is_for(verb)).collect()
}

/// The options that a verb can't have.
pub fn excluded_by(verb: &str) -> Vec<&'static OptionRow> {
    OPTIONS.iter().filter(|row| !row.is_for(verb)).collect()
}

/// The option that a term names, in either case.
pub fn option_of(term: &[u8]) -> Option<&'static OptionRow> {
    let name = term.strip_prefix(b"-")?;
    let is = |word: &str| name.eq_ignore_ascii_case(word.as_bytes());
    OPTIONS.iter().find(|row| is(row.long) || is(row.short))
}

/// Whether a term names an option, in either case, that this verb can't have.
pub fn is_excluded(verb: &str, term: &[u8]) -> bool {
    option_of(term).is_some_and(|row| !row.is_for(verb))
}
