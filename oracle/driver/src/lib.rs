//! Differential runs: scripts from a seed, the Rust's answers, and what another program answers to them.

pub mod compare;
pub mod engine;
pub mod generate;
pub mod logistic;
pub mod rng;
pub mod rust_side;
pub mod script;
