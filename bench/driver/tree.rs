//! Host code, not proved: the root of a library made of the Rust's own files (oracle/build.sh lays them
//! out) and `sorter`.

#![feature(trait_alias, ptr_metadata, vec_push_within_capacity)]

#[macro_use]
pub mod log_utils;
pub mod config;
pub mod cs;
pub mod dag;
pub mod field;
pub mod utils;

pub use dag::resolvers::runs::{Calls, Sorter};
