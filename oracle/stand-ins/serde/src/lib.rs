//! Stands in for serde: the two names, as traits and as derive macros. Nothing is serialised here.

pub use serde_derive::{Deserialize, Serialize};

pub trait Serialize {}

pub trait Deserialize<'de>: Sized {}
