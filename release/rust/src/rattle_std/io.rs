//! Writers and their errors, without the system.
use super::alloc::AllocError;
use core::fmt;

#[derive(Clone, Copy, Debug, PartialEq)]
pub enum ErrorKind {
    InvalidData,
    InvalidInput,
    NotFound,
    OutOfMemory,
    WriteZero,
}

#[derive(Clone, Copy, Debug)]
pub struct Error {
    kind: ErrorKind,
}

impl Error {
    pub fn new(kind: ErrorKind, _: &str) -> Error {
        Error { kind }
    }

    pub fn kind(&self) -> ErrorKind {
        self.kind
    }
}

impl From<ErrorKind> for Error {
    fn from(kind: ErrorKind) -> Error {
        Error { kind }
    }
}

impl From<AllocError> for Error {
    fn from(_: AllocError) -> Error {
        Error { kind: ErrorKind::OutOfMemory }
    }
}

pub type Result<T> = core::result::Result<T, Error>;

pub trait Write {
    fn write(&mut self, bytes: &[u8]) -> Result<usize> {
        self.write_all(bytes)?;
        Ok(bytes.len())
    }

    fn write_all(&mut self, bytes: &[u8]) -> Result<()>;

    fn flush(&mut self) -> Result<()>;

    fn write_fmt(&mut self, arguments: fmt::Arguments<'_>) -> Result<()> {
        struct Text<'w, W: ?Sized>(&'w mut W);
        impl<W: Write + ?Sized> fmt::Write for Text<'_, W> {
            fn write_str(&mut self, text: &str) -> fmt::Result {
                self.0.write_all(text.as_bytes()).map_err(|_| fmt::Error)
            }
        }
        fmt::Write::write_fmt(&mut Text(self), arguments)
            .map_err(|_| Error::from(ErrorKind::WriteZero))
    }
}
