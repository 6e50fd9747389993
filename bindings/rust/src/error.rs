//! Why a call is refused.

use std::error::Error;
use std::fmt;

/// Why a call is refused, in words: a literal that denotes no number, a name that is taken, a width that isn't known.
#[derive(Clone, Debug, PartialEq, Eq)]
pub struct VastError(pub String);

impl fmt::Display for VastError {
    fn fmt(&self, formatter: &mut fmt::Formatter<'_>) -> fmt::Result {
        formatter.write_str(&self.0)
    }
}

impl Error for VastError {}
