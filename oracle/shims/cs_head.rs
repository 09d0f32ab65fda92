//! What the excerpt of `cs/mod.rs` that follows needs.

use std::fmt::Debug;

pub mod traits;

/// The ordered copy of the registrar keys a BTreeMap by Place; the places themselves compare as the
/// excerpt says, and no placeholder is ever a key.
impl Ord for Place {
    fn cmp(&self, other: &Self) -> std::cmp::Ordering {
        self.0.cmp(&other.0)
    }
}
