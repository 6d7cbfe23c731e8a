//! Methods of options that older versions of Rust lack.

/// Whether there is a value that passes a test: a method of options from Rust 1.70 on.
// It takes the option as the method of Rust's library does.
#[allow(clippy::wrong_self_convention)]
pub trait IsSomeAnd<T> {
    fn is_some_and(self, test: impl FnOnce(T) -> bool) -> bool;
}

impl<T> IsSomeAnd<T> for Option<T> {
    fn is_some_and(self, test: impl FnOnce(T) -> bool) -> bool {
        match self {
            Some(value) => test(value),
            None => false,
        }
    }
}
