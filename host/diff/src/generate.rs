//! Random cases inside document 01's domain: layers with few names, and calls chosen along the state.

mod calls;
mod layers;

pub use calls::{copyable, next_call, next_load};
pub use layers::{Mode, layers_of, random_layers};

/// Few names, so that layers meet: a prefix pair, a two-byte letter, and 28 bytes twice.
pub const NAMES: [&str; 6] = ["a", "ab", "b", "é", "nnnnnnnnnnnnnnnnnnnnnnnnnnnn", "nnnnnnnnnnnnnnnnnnnnnnnnnné"];
/// 29 bytes, which no table holds.
pub const LONG: &str = "nnnnnnnnnnnnnnnnnnnnnnnnnnnnn";
/// A name that no table has.
pub const ABSENT: &str = "absent";
