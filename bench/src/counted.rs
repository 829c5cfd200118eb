//! The tree's check as its proved source has it (`build.rs` takes it from there), over slices that count what is read of them.

use std::cell::Cell;
use std::ops::{Index, Range};

// some of a record's methods serve paths alone
#[allow(dead_code)]
mod source {
    use super::{meter, Bytes, Row};
    include!(concat!(env!("OUT_DIR"), "/check.rs"));

    /// The same check without the table of marks: each record is compared with all earlier ones, parents first.
    pub fn check_without_marks(t: &Bytes) -> Result<(), usize> {
        let (records, cut) = t.as_chunks::<LEN>();
        for (k, r) in records.iter().enumerate() {
            if Record::of(r, k).is_none_or(|r| r.twin(&records[..k])) {
                return Err(LEN * k);
            }
        }
        if cut.is_empty() {
            Ok(())
        } else {
            Err(LEN * records.len())
        }
    }
}

/// What a check read of a tree.
#[derive(Clone, Copy, Debug, Default, PartialEq, Eq)]
pub struct Count {
    /// Records that were compared with earlier ones.
    pub searches: u64,
    /// Pairs of records whose parents were compared, and those among them whose parents agreed.
    pub pairs: u64,
    pub siblings: u64,
    /// Bytes that comparing read, and those that the rest of the check read.
    pub bytes: u64,
    pub others: u64,
}

thread_local! {
    static COUNT: Cell<Count> = Cell::default();
    static IS_SEARCHING: Cell<bool> = Cell::default();
}

fn tell(change: impl Fn(&mut Count)) {
    let mut count = COUNT.get();
    change(&mut count);
    COUNT.set(count);
}

/// What functions of the check tell as they begin.
mod meter {
    use super::{tell, IS_SEARCHING};

    /// A search for a twin, to its end.
    pub struct Search;

    impl Drop for Search {
        fn drop(&mut self) {
            IS_SEARCHING.set(false);
        }
    }

    pub fn search() -> Search {
        tell(|count| count.searches += 1);
        IS_SEARCHING.set(true);
        Search
    }

    pub fn pair() {
        tell(|count| count.pairs += 1);
    }

    pub fn siblings() {
        tell(|count| count.siblings += 1);
    }
}

fn read() {
    tell(|count| if IS_SEARCHING.get() { count.bytes += 1 } else { count.others += 1 });
}

/// Bytes that are counted as they are read.
#[repr(transparent)]
pub struct Bytes([u8]);

/// Those of a record.
#[repr(transparent)]
pub struct Row([u8; 22]);

impl Bytes {
    fn of(bytes: &[u8]) -> &Bytes {
        // SAFETY: `Bytes` is a `[u8]` and nothing else, by `repr(transparent)`.
        unsafe { &*(bytes as *const [u8] as *const Bytes) }
    }

    fn len(&self) -> usize {
        self.0.len()
    }

    fn is_empty(&self) -> bool {
        self.0.is_empty()
    }

    fn iter(&self) -> Reads<'_> {
        Reads(self.0.iter())
    }

    fn as_chunks<const LEN: usize>(&self) -> (&[Row], &Bytes) {
        assert_eq!(LEN, 22, "a record's bytes");
        let whole = self.0.len() / 22;
        // SAFETY: so many records are there, and a `Row` is 22 bytes and nothing else, by `repr(transparent)`.
        let rows = unsafe { std::slice::from_raw_parts(self.0.as_ptr().cast(), whole) };
        (rows, Bytes::of(&self.0[22 * whole..]))
    }
}

/// Bytes in turn.
pub struct Reads<'a>(std::slice::Iter<'a, u8>);

impl<'a> Iterator for Reads<'a> {
    type Item = &'a u8;

    fn next(&mut self) -> Option<&'a u8> {
        self.0.next().inspect(|_| read())
    }
}

impl<'a> IntoIterator for &'a Bytes {
    type Item = &'a u8;
    type IntoIter = Reads<'a>;

    fn into_iter(self) -> Reads<'a> {
        self.iter()
    }
}

impl Index<usize> for Row {
    type Output = u8;

    fn index(&self, at: usize) -> &u8 {
        read();
        &self.0[at]
    }
}

impl Index<Range<usize>> for Row {
    type Output = Bytes;

    fn index(&self, part: Range<usize>) -> &Bytes {
        Bytes::of(&self.0[part])
    }
}

/// The place of the first bad record, and what was read to find it.
pub type Counted = (Option<usize>, Count);

/// The check as it is.
pub fn check(tree: &[u8]) -> Counted {
    counted(source::check, tree)
}

/// The check without the table of marks.
pub fn check_without_marks(tree: &[u8]) -> Counted {
    counted(source::check_without_marks, tree)
}

fn counted(check: fn(&Bytes) -> Result<(), usize>, tree: &[u8]) -> Counted {
    COUNT.take();
    let place = check(Bytes::of(tree)).err();
    (place, COUNT.take())
}
