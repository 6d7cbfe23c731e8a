//! Methods of slices that older versions of Rust lack.

/// The items at the front as an array: a method of slices from Rust 1.77 on.
pub trait FirstChunk<T> {
    fn split_first_chunk<const N: usize>(&self) -> Option<(&[T; N], &[T])>;
}

impl<T> FirstChunk<T> for [T] {
    fn split_first_chunk<const N: usize>(&self) -> Option<(&[T; N], &[T])> {
        if self.len() < N {
            return None;
        }
        let (first, rest) = self.split_at(N);
        Some((first.try_into().ok()?, rest))
    }
}

/// The bytes without the spaces around them: `trim_ascii` of slices, from Rust 1.80 on. It has a name of its
/// own, since older versions have an unstable method of that name.
pub trait TrimAscii {
    fn without_spaces_around(&self) -> &[u8];
}

impl TrimAscii for [u8] {
    fn without_spaces_around(&self) -> &[u8] {
        let is_solid = |byte: &u8| !byte.is_ascii_whitespace();
        let from = self.iter().position(is_solid).unwrap_or(self.len());
        let to = self.iter().rposition(is_solid).map_or(from, |last| last + 1);
        &self[from..to]
    }
}
