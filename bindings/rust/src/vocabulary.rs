//! The words of a command: verbs, options and operators, with their numbers.

use crate::face::*;
use core::fmt;

/// A verb.
#[derive(Clone, Copy, Debug, PartialEq, Eq, Hash)]
#[repr(u8)]
pub enum Verb {
    /// `cd`
    Cd = VERB_CD,
    /// `create`
    Create = VERB_CREATE,
    /// `delete`
    Delete = VERB_DELETE,
    /// `dump`
    Dump = VERB_DUMP,
    /// `exit`
    Exit = VERB_EXIT,
    /// `help`
    Help = VERB_HELP,
    /// `load`
    Load = VERB_LOAD,
    /// `reset`
    Reset = VERB_RESET,
    /// `set`
    Set = VERB_SET,
    /// `show`
    Show = VERB_SHOW,
    /// `start`
    Start = VERB_START,
    /// `stop`
    Stop = VERB_STOP,
    /// `version`
    Version = VERB_VERSION,
}

impl Verb {
    /// All of them, by their numbers from 1 on.
    pub const ALL: [Verb; 13] = [
        Verb::Cd,
        Verb::Create,
        Verb::Delete,
        Verb::Dump,
        Verb::Exit,
        Verb::Help,
        Verb::Load,
        Verb::Reset,
        Verb::Set,
        Verb::Show,
        Verb::Start,
        Verb::Stop,
        Verb::Version,
    ];

    /// Its name, in lower case.
    ///
    /// ```
    /// assert_eq!(smclp::Verb::Show.name(), "show");
    /// ```
    pub fn name(self) -> &'static str {
        match self {
            Verb::Cd => "cd",
            Verb::Create => "create",
            Verb::Delete => "delete",
            Verb::Dump => "dump",
            Verb::Exit => "exit",
            Verb::Help => "help",
            Verb::Load => "load",
            Verb::Reset => "reset",
            Verb::Set => "set",
            Verb::Show => "show",
            Verb::Start => "start",
            Verb::Stop => "stop",
            Verb::Version => "version",
        }
    }

    /// Its number in records.
    ///
    /// ```
    /// assert_eq!(smclp::Verb::Show.number(), smclp::face::VERB_SHOW);
    /// ```
    pub fn number(self) -> u8 {
        self as u8
    }

    /// The verb of a number.
    ///
    /// ```
    /// use smclp::Verb;
    ///
    /// assert_eq!(Verb::from_number(10), Some(Verb::Show));
    /// assert_eq!(Verb::from_number(14), None);
    /// ```
    pub fn from_number(number: u8) -> Option<Verb> {
        let mut all = Verb::ALL.iter().copied();
        all.find(|verb| verb.number() == number)
    }
}

impl fmt::Display for Verb {
    fn fmt(&self, f: &mut fmt::Formatter<'_>) -> fmt::Result {
        f.pad(self.name())
    }
}

/// An option of a command, whether the line has its long or its short name. (`Option` is Rust's own.)
#[derive(Clone, Copy, Debug, PartialEq, Eq, Hash)]
#[repr(u8)]
pub enum CommandOption {
    /// `-all`
    All = OPTION_ALL,
    /// `-destination`
    Destination = OPTION_DESTINATION,
    /// `-display`
    Display = OPTION_DISPLAY,
    /// `-examine`
    Examine = OPTION_EXAMINE,
    /// `-force`
    Force = OPTION_FORCE,
    /// `-help`
    Help = OPTION_HELP,
    /// `-keep`
    Keep = OPTION_KEEP,
    /// `-level`
    Level = OPTION_LEVEL,
    /// `-output`
    Output = OPTION_OUTPUT,
    /// `-source`
    Source = OPTION_SOURCE,
    /// `-version`
    Version = OPTION_VERSION,
    /// `-wait`
    Wait = OPTION_WAIT,
}

impl CommandOption {
    /// All of them, by their numbers from 1 on.
    pub const ALL: [CommandOption; 12] = [
        CommandOption::All,
        CommandOption::Destination,
        CommandOption::Display,
        CommandOption::Examine,
        CommandOption::Force,
        CommandOption::Help,
        CommandOption::Keep,
        CommandOption::Level,
        CommandOption::Output,
        CommandOption::Source,
        CommandOption::Version,
        CommandOption::Wait,
    ];

    /// Its long name, in lower case and without the `-`.
    ///
    /// ```
    /// assert_eq!(smclp::CommandOption::Level.name(), "level");
    /// ```
    pub fn name(self) -> &'static str {
        match self {
            CommandOption::All => "all",
            CommandOption::Destination => "destination",
            CommandOption::Display => "display",
            CommandOption::Examine => "examine",
            CommandOption::Force => "force",
            CommandOption::Help => "help",
            CommandOption::Keep => "keep",
            CommandOption::Level => "level",
            CommandOption::Output => "output",
            CommandOption::Source => "source",
            CommandOption::Version => "version",
            CommandOption::Wait => "wait",
        }
    }

    /// Its number in records.
    ///
    /// ```
    /// assert_eq!(smclp::CommandOption::Level.number(), smclp::face::OPTION_LEVEL);
    /// ```
    pub fn number(self) -> u8 {
        self as u8
    }

    /// The option of a number.
    ///
    /// ```
    /// use smclp::CommandOption;
    ///
    /// assert_eq!(CommandOption::from_number(8), Some(CommandOption::Level));
    /// assert_eq!(CommandOption::from_number(13), None);
    /// ```
    pub fn from_number(number: u8) -> Option<CommandOption> {
        let mut all = CommandOption::ALL.iter().copied();
        all.find(|option| option.number() == number)
    }
}

impl fmt::Display for CommandOption {
    fn fmt(&self, f: &mut fmt::Formatter<'_>) -> fmt::Result {
        f.pad(self.name())
    }
}

/// What stands between a property's name and its value.
#[derive(Clone, Copy, Debug, PartialEq, Eq, Hash)]
#[repr(u8)]
pub enum Operator {
    /// Nothing: the property is a mere name.
    None = OPERATOR_NONE,
    /// `name=value`
    Set = OPERATOR_SET,
    /// `name==value`
    Equals = OPERATOR_EQUALS,
}

impl Operator {
    /// All of them, by their numbers from 0 on.
    pub const ALL: [Operator; 3] = [Operator::None, Operator::Set, Operator::Equals];

    /// The sign in the line, which stands right after the name.
    ///
    /// ```
    /// assert_eq!(smclp::Operator::Equals.sign(), "==");
    /// ```
    pub fn sign(self) -> &'static str {
        match self {
            Operator::None => "",
            Operator::Set => "=",
            Operator::Equals => "==",
        }
    }

    /// Its number in records.
    ///
    /// ```
    /// assert_eq!(smclp::Operator::Equals.number(), smclp::face::OPERATOR_EQUALS);
    /// ```
    pub fn number(self) -> u8 {
        self as u8
    }

    /// The operator of a number.
    ///
    /// ```
    /// use smclp::Operator;
    ///
    /// assert_eq!(Operator::from_number(2), Some(Operator::Equals));
    /// assert_eq!(Operator::from_number(3), None);
    /// ```
    pub fn from_number(number: u8) -> Option<Operator> {
        let mut all = Operator::ALL.iter().copied();
        all.find(|operator| operator.number() == number)
    }
}

impl fmt::Display for Operator {
    fn fmt(&self, f: &mut fmt::Formatter<'_>) -> fmt::Result {
        f.pad(self.sign())
    }
}
