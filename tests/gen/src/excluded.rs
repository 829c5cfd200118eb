//! Options that a verb can't have, put into a line at each place where one could stand.

use crate::line::{made_line, put_argument, put_option_name, put_spaces, shout_some, Made, Places};
use crate::options::{excluded_by, OptionRow};
use crate::rng::Rng;
use crate::shout::shout;

/// Arguments that are of no option's form, or of some alone; none leaves a quote or a GRAVE open.
const BAD_ARGUMENTS: [&str; 10] = [
    "02",
    "x",
    "4294967296",
    ",",
    "a,,b",
    "\"a\"",
    "()",
    "`x",
    "a==b",
    "-x",
];

/// A line by the grammar with exactly one option put in that its verb can't have.
pub struct Excluded {
    pub line: Vec<u8>,
    /// Where the option's term begins.
    pub place: usize,
    /// The line without that option and its argument.
    pub without: Vec<u8>,
}

/// The option stands first, among the others or last; its argument fits, is missing or bad.
pub fn excluded(rng: &mut Rng) -> Excluded {
    let made = made_command(rng);
    let (option, gap) = (drawn_option(rng, &made), drawn_gap(rng, &made));
    let mut text = option_name(rng, option);
    let spaces = text.iter().take_while(|&&byte| byte == b' ').count();
    put_any_argument(rng, option, &mut text);
    Excluded {
        line: put_in(&made.line, gap, &text),
        place: gap + spaces,
        without: made.line,
    }
}

/// One line of these, or one with such an option twice, after the options, or as an argument.
pub fn excluded_line(rng: &mut Rng) -> Vec<u8> {
    let which = rng.below(10);
    if which < 6 {
        return excluded(rng).line;
    }
    let made = made_command(rng);
    let option = drawn_option(rng, &made);
    let mut text = option_name(rng, option);
    put_any_argument(rng, option, &mut text);
    match which {
        6 | 7 => {
            let gap = drawn_gap(rng, &made);
            let again = option_name(rng, option);
            put_in(&put_in(&made.line, gap, &again), gap, &text)
        }
        // After the options, whatever stands there.
        8 => {
            let between = rng.pick_text(&[" /", " a=b", " Name", ""]);
            [&made.line[..], between, &text].concat()
        }
        _ => {
            let before = rng.pick_text(&[" -k", " -keep", " -o", " -OUTPUT"]);
            let text = [before, &text].concat();
            put_in(&made.line, made.gaps[0], &text)
        }
    }
}

/// A line made by the grammar that is not blank, some of its names shouted.
fn made_command(rng: &mut Rng) -> Made {
    loop {
        let mut made = made_line(rng);
        if made.verb.is_empty() {
            continue;
        }
        if rng.percent(30) {
            let names = std::mem::take(&mut made.names);
            shout_some(rng, &mut made.line, names);
        }
        return made;
    }
}

fn drawn_option(rng: &mut Rng, made: &Made) -> &'static OptionRow {
    let options = excluded_by(made.verb);
    options[rng.below(options.len())]
}

fn drawn_gap(rng: &mut Rng, made: &Made) -> usize {
    *rng.pick(&made.gaps)
}

/// The option's name in any case, with the spaces before it.
fn option_name(rng: &mut Rng, option: &OptionRow) -> Vec<u8> {
    let mut text = Vec::new();
    put_option_name(rng, option, &mut text, &mut Places::new());
    if rng.percent(30) {
        shout(rng, &mut text);
    }
    text
}

/// An argument that fits the option, if it takes one; or a bad one, or none.
fn put_any_argument(rng: &mut Rng, option: &OptionRow, text: &mut Vec<u8>) {
    match rng.below(4) {
        0 => {}
        1 => {
            put_spaces(rng, text);
            text.extend_from_slice(rng.pick_text(&BAD_ARGUMENTS));
        }
        _ => put_argument(rng, option, text, &mut Places::new()),
    }
}

fn put_in(line: &[u8], at: usize, text: &[u8]) -> Vec<u8> {
    let (before, after) = line.split_at(at);
    [before, text, after].concat()
}
