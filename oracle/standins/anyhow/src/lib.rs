//! Stands for the crate `anyhow`: an error that holds any other error, and the two macros that make one.

use std::error::Error as StdError;
use std::fmt::{Debug, Display, Formatter};

pub type Result<T, E = Error> = std::result::Result<T, E>;

pub struct Error(Box<dyn StdError + Send + Sync>);

impl Error {
    /// An error that is only a text.
    pub fn msg(text: String) -> Error {
        Error(Box::new(Message(text)))
    }

    /// The error held, where it is an `E`.
    pub fn downcast_ref<E: StdError + 'static>(&self) -> Option<&E> {
        self.0.downcast_ref()
    }
}

// `Error` itself is no `StdError`, as in the real crate: otherwise this would clash with `From<T> for T`.
impl<E: StdError + Send + Sync + 'static> From<E> for Error {
    fn from(error: E) -> Error {
        Error(Box::new(error))
    }
}

impl Display for Error {
    fn fmt(&self, f: &mut Formatter<'_>) -> std::fmt::Result {
        Display::fmt(&self.0, f)
    }
}

impl Debug for Error {
    fn fmt(&self, f: &mut Formatter<'_>) -> std::fmt::Result {
        Debug::fmt(&self.0, f)
    }
}

#[derive(Debug)]
struct Message(String);

impl StdError for Message {}

impl Display for Message {
    fn fmt(&self, f: &mut Formatter<'_>) -> std::fmt::Result {
        f.write_str(&self.0)
    }
}

/// `Ok` with the error type fixed.
#[allow(non_snake_case)]
pub fn Ok<T>(value: T) -> Result<T> {
    Result::Ok(value)
}

/// A text with its arguments, or an error, as an `Error`.
#[macro_export]
macro_rules! anyhow {
    ($text:literal $(, $argument:expr)* $(,)?) => {
        $crate::Error::msg(format!($text $(, $argument)*))
    };
    ($error:expr $(,)?) => {
        $crate::Error::from($error)
    };
}

/// Returns what `anyhow!` makes of the same arguments.
#[macro_export]
macro_rules! bail {
    ($($argument:tt)*) => {
        return ::std::result::Result::Err($crate::anyhow!($($argument)*))
    };
}
