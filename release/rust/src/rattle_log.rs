//! The names of Rattle's `log`: a logger is passed to each call that warns.
use core::fmt;

/// A logger.
pub trait Log {
    /// Receives a warning.
    fn warn(&self, message: fmt::Arguments<'_>);
}

/// A logger that drops all.
pub mod sink {
    #[derive(Clone, Copy, Debug)]
    pub struct Discard;

    impl super::Log for Discard {
        fn warn(&self, _: core::fmt::Arguments<'_>) {}
    }
}

/// The logger of the process: the crate `log`, if the feature is on.
#[derive(Clone, Copy, Debug)]
pub struct Process;

impl Log for Process {
    #[cfg(feature = "log")]
    fn warn(&self, message: fmt::Arguments<'_>) {
        ::log::warn!("{message}");
    }

    #[cfg(not(feature = "log"))]
    fn warn(&self, _: fmt::Arguments<'_>) {}
}

macro_rules! warn_to {
    ($logger:expr; $($message:tt)*) => { $logger.warn(format_args!($($message)*)) };
}
pub(crate) use warn_to as warn;
