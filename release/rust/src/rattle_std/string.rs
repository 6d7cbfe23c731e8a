//! A string whose calls report an allocation that fails.
use super::alloc::{AllocError, Global};
use alloc::string;
use core::borrow::Borrow;
use core::fmt;
use core::ops::Deref;

#[derive(Debug, Default, PartialEq, Eq, PartialOrd, Ord)]
pub struct String(pub string::String);

impl Deref for String {
    type Target = str;

    fn deref(&self) -> &str {
        &self.0
    }
}

impl String {
    pub const fn new(_: Global) -> Self {
        String(string::String::new())
    }

    pub fn with_capacity(_: Global, n: usize) -> Result<Self, AllocError> {
        let mut text = string::String::new();
        text.try_reserve_exact(n).map_err(|_| AllocError)?;
        Ok(String(text))
    }

    pub fn from_str(_: Global, text: &str) -> Result<Self, AllocError> {
        let mut copy = String::new(Global);
        copy.push_str(text)?;
        Ok(copy)
    }

    pub fn from_utf8(bytes: super::vec::Vec<u8>) -> Result<Self, string::FromUtf8Error> {
        string::String::from_utf8(bytes.0).map(String)
    }

    pub fn as_str(&self) -> &str {
        &self.0
    }

    /// Makes room for so many more bytes, where there is less.
    #[inline]
    fn make_room(&mut self, n: usize) -> Result<(), AllocError> {
        if self.0.capacity() - self.0.len() >= n {
            return Ok(());
        }
        self.0.try_reserve(n).map_err(|_| AllocError)
    }

    #[inline]
    pub fn push_str(&mut self, text: &str) -> Result<(), AllocError> {
        self.make_room(text.len())?;
        self.0.push_str(text);
        Ok(())
    }

    #[inline]
    pub fn push(&mut self, character: char) -> Result<(), AllocError> {
        self.make_room(4)?;
        self.0.push(character);
        Ok(())
    }

    pub fn truncate(&mut self, n: usize) {
        self.0.truncate(n);
    }

    pub fn write_fmt(&mut self, arguments: fmt::Arguments<'_>) -> Result<(), AllocError> {
        fmt::Write::write_fmt(self, arguments).map_err(|_| AllocError)
    }
}

impl fmt::Write for String {
    fn write_str(&mut self, text: &str) -> fmt::Result {
        self.push_str(text).map_err(|_| fmt::Error)
    }
}

impl fmt::Display for String {
    fn fmt(&self, f: &mut fmt::Formatter<'_>) -> fmt::Result {
        f.write_str(&self.0)
    }
}

pub trait ToString {
    fn to_string(&self, _: Global) -> Result<String, AllocError>;
}

impl<T: fmt::Display + ?Sized> ToString for T {
    fn to_string(&self, alloc: Global) -> Result<String, AllocError> {
        let mut text = String::new(alloc);
        text.write_fmt(format_args!("{self}"))?;
        Ok(text)
    }
}

impl Borrow<str> for String {
    fn borrow(&self) -> &str {
        &self.0
    }
}

/// A text in a string of its own, as it is or in lower case.
pub trait Lowercase {
    fn to_string_in(&self, _: Global) -> Result<String, AllocError>;

    fn to_ascii_lowercase_in(&self, _: Global) -> Result<String, AllocError>;
}

impl Lowercase for str {
    fn to_string_in(&self, alloc: Global) -> Result<String, AllocError> {
        String::from_str(alloc, self)
    }

    fn to_ascii_lowercase_in(&self, alloc: Global) -> Result<String, AllocError> {
        let mut text = String::from_str(alloc, self)?;
        text.0.make_ascii_lowercase();
        Ok(text)
    }
}

/// Texts one after another, with another between two.
pub trait Joined {
    fn join_in(&self, _: Global, between: &str) -> Result<String, AllocError>;
}

impl Joined for [String] {
    fn join_in(&self, alloc: Global, between: &str) -> Result<String, AllocError> {
        let mut text = String::new(alloc);
        for (number, one) in self.iter().enumerate() {
            text.push_str(if number == 0 { "" } else { between })?;
            text.push_str(one)?;
        }
        Ok(text)
    }
}

/// Returns the text that the arguments print.
pub fn printed(alloc: Global, arguments: fmt::Arguments<'_>) -> Result<String, AllocError> {
    let mut text = String::new(alloc);
    text.write_fmt(arguments)?;
    Ok(text)
}

#[allow(unused_macros)]
macro_rules! format_in {
    ($alloc:expr; $($message:tt)*) => {
        $crate::rattle_std::string::printed($alloc, format_args!($($message)*))
    };
}
pub(crate) use format_in;
