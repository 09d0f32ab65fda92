//! Stands in for `cs/traits/mod.rs`.

pub mod cs;
