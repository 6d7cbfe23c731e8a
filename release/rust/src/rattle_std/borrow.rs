//! A text that is borrowed or owned.
use super::string::String;
use core::fmt;
use core::ops::Deref;

#[derive(Debug)]
pub enum CowStr<'a> {
    Borrowed(&'a str),
    Owned(String),
}

impl CowStr<'_> {
    #[inline]
    pub fn as_str(&self) -> &str {
        match self {
            CowStr::Borrowed(text) => text,
            CowStr::Owned(text) => text.as_str(),
        }
    }
}

impl Deref for CowStr<'_> {
    type Target = str;

    #[inline]
    fn deref(&self) -> &str {
        self.as_str()
    }
}

impl fmt::Display for CowStr<'_> {
    fn fmt(&self, f: &mut fmt::Formatter<'_>) -> fmt::Result {
        f.write_str(self.as_str())
    }
}

impl PartialEq for CowStr<'_> {
    fn eq(&self, other: &Self) -> bool {
        self.as_str() == other.as_str()
    }
}
