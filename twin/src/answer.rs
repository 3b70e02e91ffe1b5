//! The answer that a line makes and that waits to be taken.

use crate::error::Error;
use crate::text::NEWLINE;

/// With its final newline (02, #106).
pub const ANSWER_LIMIT: usize = 4096;

#[derive(Clone, Debug, PartialEq, Eq)]
pub struct Answer {
    pub length: usize,
    pub bytes: [u8; ANSWER_LIMIT],
}

impl Answer {
    pub(crate) const fn empty() -> Answer {
        Answer {
            length: 0,
            bytes: [0; ANSWER_LIMIT],
        }
    }

    pub(crate) fn has_bytes(&self) -> bool {
        self.length != 0
    }

    pub(crate) fn waiting(&self) -> &[u8] {
        &self.bytes[..self.length]
    }

    pub(crate) fn drop_bytes(&mut self) {
        self.length = 0;
    }

    /// 01, check 9: adds one unit's answer after a separator, if the final newline still fits.
    #[inline]
    pub(crate) fn add(&mut self, text: &[u8]) -> Result<(), Error> {
        let start = self.length + usize::from(self.has_bytes());
        let end = start + text.len();
        if end + 1 > ANSWER_LIMIT {
            return Err(Error::QueryDeadlocked);
        }
        if self.has_bytes() {
            self.bytes[self.length] = b';';
        }
        self.bytes[start..end].copy_from_slice(text);
        self.length = end;
        Ok(())
    }

    /// Puts the newline after the answers of a line, if there are any; check 9 kept its place.
    pub(crate) fn end(&mut self) {
        if self.has_bytes() {
            self.bytes[self.length] = NEWLINE;
            self.length += 1;
        }
    }
}
