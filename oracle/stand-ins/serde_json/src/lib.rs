//! Stands in for serde_json: the one function that event.rs names. It writes nothing and says so.

use serde::Serialize;

/// Metadata is left out.
#[derive(Debug)]
pub struct Error;

pub fn to_string<T: Serialize>(_: &T) -> Result<String, Error> {
    Err(Error)
}
