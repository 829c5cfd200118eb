//! Where writers put their bytes: a count, lent room, or a growing text.

pub(crate) trait Sink {
    fn put_all(&mut self, bytes: &[u8]);

    fn put(&mut self, byte: u8) {
        self.put_all(&[byte]);
    }
}

/// Counts what would be written, to learn the room needed before any is touched.
#[derive(Default)]
pub(crate) struct Count(pub(crate) usize);

impl Sink for Count {
    fn put_all(&mut self, bytes: &[u8]) {
        self.0 += bytes.len();
    }
}

/// Fills the start of lent room; callers have made sure that all fits.
pub(crate) struct Fill<'r> {
    room: &'r mut [u8],
    pub(crate) length: usize,
}

impl<'r> Fill<'r> {
    pub(crate) fn new(room: &'r mut [u8]) -> Fill<'r> {
        Fill { room, length: 0 }
    }
}

impl Sink for Fill<'_> {
    #[inline]
    fn put_all(&mut self, bytes: &[u8]) {
        let end = self.length + bytes.len();
        if let Some(slot) = self.room.get_mut(self.length..end) {
            slot.copy_from_slice(bytes);
        }
        self.length = end;
    }

    #[inline]
    fn put(&mut self, byte: u8) {
        if let Some(slot) = self.room.get_mut(self.length) {
            *slot = byte;
        }
        self.length += 1;
    }
}

impl Sink for Vec<u8> {
    #[inline]
    fn put_all(&mut self, bytes: &[u8]) {
        self.extend_from_slice(bytes);
    }

    #[inline]
    fn put(&mut self, byte: u8) {
        self.push(byte);
    }
}
