//! Conversions.
pub use core::convert::*;

/// What has a text.
pub trait AsStr {
    fn as_str(&self) -> &str;
}

impl AsStr for str {
    fn as_str(&self) -> &str {
        self
    }
}

impl AsStr for &str {
    fn as_str(&self) -> &str {
        self
    }
}

impl AsStr for crate::string::String {
    fn as_str(&self) -> &str {
        self
    }
}
