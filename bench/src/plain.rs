//! The check with plain comparing: each record with every earlier one, both as whole records.

/// The form of a record is tested by the proved source, here over plain slices.
#[allow(dead_code, clippy::let_unit_value)]
mod source {
    type Bytes = [u8];
    type Row = [u8; LEN];

    mod meter {
        pub fn search() {}
        pub fn pair() {}
        pub fn siblings() {}
    }

    include!(concat!(env!("OUT_DIR"), "/check.rs"));

    pub fn is_bad(record: &Row, index: usize) -> bool {
        Record::of(record, index).is_none()
    }
}

/// The place of the first bad record. Two records of good form are the same node exactly where all their bytes are the same.
fn check(tree: &[u8], mut are_same: impl FnMut(&[u8; 22], &[u8; 22]) -> bool) -> Option<usize> {
    let record = |index: usize| tree[22 * index..].first_chunk();
    let mut is_bad = |index: usize| match record(index) {
        Some(here) => source::is_bad(here, index) || (0..index).filter_map(record).any(|earlier| are_same(earlier, here)),
        None => true,
    };
    (0..tree.len().div_ceil(22)).find(|&index| is_bad(index)).map(|index| 22 * index)
}

/// Both records whole, without a count: what is timed.
pub fn check_whole(tree: &[u8]) -> Option<usize> {
    check(tree, |a, b| a == b)
}

/// Both records whole, and how many bytes that reads.
pub fn count_whole(tree: &[u8]) -> (Option<usize>, u64) {
    let mut bytes = 0;
    let place = check(tree, |a, b| {
        bytes += 2 * a.len() as u64;
        a == b
    });
    (place, bytes)
}

/// Byte by byte from the kind on, up to the first that differs, and how many bytes that reads.
pub fn count_to_difference(tree: &[u8]) -> (Option<usize>, u64) {
    let mut bytes = 0;
    let place = check(tree, |a, b| {
        a.iter().zip(b).all(|(one, other)| {
            bytes += 2;
            one == other
        })
    });
    (place, bytes)
}
