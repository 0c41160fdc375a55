//! The calls of the solver's Rust, for the programs beside it.

mod original;

pub use original::Original;
