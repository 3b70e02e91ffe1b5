//! The line as it comes in.

/// Bytes before the newline (02, #106).
pub const LINE_LIMIT: usize = 4096;

#[derive(Clone, Debug, PartialEq, Eq)]
pub struct Line {
    pub length: usize,
    pub bytes: [u8; LINE_LIMIT],
    /// Bytes were dropped: the newline gives -363, whatever is stored.
    pub overlong: bool,
}

impl Line {
    pub(crate) const fn empty() -> Line {
        Line {
            length: 0,
            bytes: [0; LINE_LIMIT],
            overlong: false,
        }
    }

    /// Keeps what fits and marks the line overlong if something doesn't.
    pub(crate) fn store(&mut self, bytes: &[u8]) {
        let kept = bytes.len().min(LINE_LIMIT - self.length);
        let end = self.length + kept;
        self.bytes[self.length..end].copy_from_slice(&bytes[..kept]);
        self.length = end;
        self.overlong |= kept < bytes.len();
    }

    /// Whether a line that ends with these bytes needs nothing of what is stored.
    pub(crate) fn is_whole(&self, last: &[u8]) -> bool {
        self.length == 0 && !self.overlong && last.len() <= LINE_LIMIT
    }

    pub(crate) fn stored(&self) -> &[u8] {
        &self.bytes[..self.length]
    }

    pub(crate) fn start(&mut self) {
        self.length = 0;
        self.overlong = false;
    }
}
