//! What the two sides have after a call, compared: upper tables, nodes by path, answers.

mod answers;
mod listing;
mod nodes;
mod tables;

pub use answers::{Judged, compare_answers};
pub use listing::page_of;
pub use nodes::{Pairs, compare_nodes};
pub use tables::{Pairing, pair_tables};

use crate::side::Standing;
use std::fmt;

/// In what the sides differ. A shrunk case keeps it.
#[derive(Clone, Copy, PartialEq, Eq, Debug)]
pub enum What {
    /// The errno of each answer, 0 where it is accepted.
    Errno {
        ours: u32,
        rust: u32,
    },
    /// The node, the numbers counted or the node's fields that an accepted call answers.
    Answer,
    /// The page is not the part of the whole listing that its offset and sizes ask for.
    Page,
    /// The whole listing.
    Listing,
    /// A node of ours that the other side has not.
    Missing,
    Stack,
    Whiteout,
    Count,
    Children,
    Upper,
    /// A refusal of ours that changed something.
    Refusal,
    /// A listed difference, but an answer that is not the one listed.
    Listed,
}

/// A divergence that is on no list.
#[derive(Clone, PartialEq, Eq, Debug)]
pub struct Divergence {
    pub what: What,
    /// Both sides in words.
    pub words: String,
}

impl Divergence {
    pub fn new(what: What, words: String) -> Divergence {
        Divergence { what, words }
    }
}

impl fmt::Display for Divergence {
    fn fmt(&self, f: &mut fmt::Formatter<'_>) -> fmt::Result {
        write!(f, "{:?}: {}", self.what, self.words)
    }
}

/// Everything that the sides have: the upper tables up to renaming, our resident nodes by path.
pub fn compare_standings(ours: &Standing, rust: &Standing) -> Result<(Pairing, Pairs), Divergence> {
    let pairing = pair_tables(ours.upper.as_ref(), rust.upper.as_ref())?;
    let pairs = compare_nodes(ours, rust, &pairing)?;
    Ok((pairing, pairs))
}
