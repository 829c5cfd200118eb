//! "Two commands are the same": compared by what their parts stand for, without any writing.

use crate::bytes::same_in_either_case;
use crate::path::is_separator;
use crate::reading::gather;
use crate::records::{records, Gathered, Record};
use crate::terms::stood_for;
use crate::value::{items, list_items, split_named_item};
use crate::vocabulary::{DESTINATION, DISPLAY, LEVEL, OUTPUT, SOURCE};

/// Whether both lines are accepted and are the same command; blank is the same as blank.
pub fn same_command(left: &[u8], right: &[u8]) -> bool {
    let (mut of_left, mut of_right) = (Gathered::new(), Gathered::new());
    if gather(left, &mut of_left).is_err() || gather(right, &mut of_right).is_err() {
        return false;
    }
    pairwise(
        records(of_left.as_bytes()),
        records(of_right.as_bytes()),
        |a, b| same_record(left, a, right, b),
    )
}

/// Whether both have as many members and each two that stand alike are the same.
fn pairwise<T: Copy>(
    mut left: impl Iterator<Item = T>,
    mut right: impl Iterator<Item = T>,
    same: impl Fn(T, T) -> bool,
) -> bool {
    loop {
        match (left.next(), right.next()) {
            (None, None) => return true,
            (Some(a), Some(b)) if same(a, b) => {}
            _ => return false,
        }
    }
}

fn same_record(left: &[u8], a: Record, right: &[u8], b: Record) -> bool {
    match (a, b) {
        (Record::Verb { number: a }, Record::Verb { number: b }) => a == b,
        (
            Record::Option {
                number: a,
                argument: of_a,
            },
            Record::Option {
                number: b,
                argument: of_b,
            },
        ) => a == b && same_argument(a, of_a.of(left), of_b.of(right)),
        (Record::Target { part: a }, Record::Target { part: b }) => {
            same_path(a.of(left), b.of(right))
        }
        (
            Record::Property {
                name: name_a,
                operator: operator_a,
                value: value_a,
            },
            Record::Property {
                name: name_b,
                operator: operator_b,
                value: value_b,
            },
        ) => {
            name_a.of(left) == name_b.of(right)
                && operator_a == operator_b
                && same_value(value_a.of(left), value_b.of(right))
        }
        (Record::Blank, Record::Blank) => true,
        _ => false,
    }
}

fn same_argument(option: u8, a: &[u8], b: &[u8]) -> bool {
    match option {
        SOURCE | DESTINATION => stood_for(a).eq(stood_for(b)),
        DISPLAY | OUTPUT => pairwise(items(a), items(b), same_named_item),
        // A number has no letters, so this is about `all` alone.
        LEVEL => same_in_either_case(a, b),
        _ => a == b,
    }
}

fn same_named_item(a: &[u8], b: &[u8]) -> bool {
    let ((name_a, value_a), (name_b, value_b)) = (split_named_item(a), split_named_item(b));
    let values_agree = match (value_a, value_b) {
        (None, None) => true,
        (Some(a), Some(b)) => same_value(a, b),
        _ => false,
    };
    name_a == name_b && values_agree
}

fn same_path(a: &[u8], b: &[u8]) -> bool {
    pairwise(a.iter(), b.iter(), |&a, &b| {
        a == b || (is_separator(a) && is_separator(b))
    })
}

/// A list is the same as a list alone; plain and quoted are alike.
fn same_value(a: &[u8], b: &[u8]) -> bool {
    match (list_items(a), list_items(b)) {
        (None, None) => stood_for(a).eq(stood_for(b)),
        (Some(a), Some(b)) => pairwise(a, b, |a, b| stood_for(a).eq(stood_for(b))),
        _ => false,
    }
}
