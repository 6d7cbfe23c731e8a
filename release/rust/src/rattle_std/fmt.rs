//! Printing, and a text of bounded length.
pub use core::fmt::*;

/// A text of at most `N` bytes, with no allocation.
pub struct InlineText<const N: usize> {
    bytes: [u8; N],
    len: usize,
}

impl<const N: usize> InlineText<N> {
    pub fn new() -> Self {
        InlineText { bytes: [0; N], len: 0 }
    }

    pub fn as_str(&self) -> &str {
        core::str::from_utf8(&self.bytes[..self.len]).unwrap_or("")
    }
}

impl<const N: usize> Write for InlineText<N> {
    fn write_str(&mut self, text: &str) -> Result {
        let end = self.len + text.len();
        self.bytes
            .get_mut(self.len..end).ok_or(Error)?.copy_from_slice(text.as_bytes());
        self.len = end;
        Ok(())
    }
}
