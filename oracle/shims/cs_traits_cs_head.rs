//! What the excerpt of `cs/traits/cs.rs` that follows needs.

use crate::dag::WitnessSource;
use crate::field::SmallField;
use crate::log;
