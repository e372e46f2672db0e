//! What an accepted call that writes came upon: counted, so that a run shows that it went where the calls differ.

use crate::call::Call;
use crate::need::{self, Before};
use overlay::Kind;
use std::fmt;

/// Something that an accepted call came upon.
#[derive(Clone, Copy, PartialEq, Eq, PartialOrd, Ord, Hash, Debug)]
pub enum Reach {
    /// Records put into the upper layer before the new one: directories made, a file copied up. 3 stands for more too.
    Copies(usize),
    /// The new name was a whiteout's: one of a lower layer, one with a record of its own, one that shares its record.
    LowerWhiteout,
    LoneWhiteout,
    SharedWhiteout,
    /// A lower layer has a directory under the whiteout.
    OverDirectory,
    /// A link whose source and parent miss the same upper directory.
    SharedMissing,
    /// The upper layer's records or entries are all used after the call.
    Filled,
}

impl Reach {
    /// All of them.
    pub const ALL: [Reach; 10] = [
        Reach::Copies(0),
        Reach::Copies(1),
        Reach::Copies(2),
        Reach::Copies(3),
        Reach::LowerWhiteout,
        Reach::LoneWhiteout,
        Reach::SharedWhiteout,
        Reach::OverDirectory,
        Reach::SharedMissing,
        Reach::Filled,
    ];
}

impl fmt::Display for Reach {
    fn fmt(&self, f: &mut fmt::Formatter<'_>) -> fmt::Result {
        f.write_str(match self {
            Reach::Copies(0) => "no copy-up",
            Reach::Copies(1) => "one record copied up",
            Reach::Copies(2) => "two records copied up",
            Reach::Copies(_) => "three or more records copied up",
            Reach::LowerWhiteout => "a lower whiteout under the name",
            Reach::LoneWhiteout => "an upper whiteout under the name, its record its own",
            Reach::SharedWhiteout => "an upper whiteout under the name, its record shared",
            Reach::OverDirectory => "a lower directory below the whiteout",
            Reach::SharedMissing => "a directory that a link's source and parent both miss",
            Reach::Filled => "a full upper layer after it",
        })
    }
}

/// What a call comes upon, given what stands before it and that it is accepted.
pub fn reached(b: &Before, call: &Call<u64>) -> Vec<Reach> {
    let (places, used) = (need::places(b, call), need::used(b.standing));
    let mut found = vec![Reach::Copies(places.copies.min(3))];
    found.extend(match (places.whiteout, places.freed) {
        (true, 1) => Some(Reach::LoneWhiteout),
        (true, _) => Some(Reach::SharedWhiteout),
        (false, _) => None,
    });
    if let Some((parent, name)) = call.about().zip(call.name()) {
        let hidden = b.records(*parent, name);
        let whiteout = hidden.first().is_some_and(|r| r.is_whiteout());
        found.extend((whiteout && !places.whiteout).then_some(Reach::LowerWhiteout));
        found.extend((whiteout && hidden.iter().any(|r| r.kind == Kind::Directory)).then_some(Reach::OverDirectory));
    }
    if let Call::Link { source, parent, .. } = call {
        let apart = [*source, *parent].map(|node| need::places(b, &Call::CopyUp { node }).copies);
        found.extend((apart[0] + apart[1] > places.copies).then_some(Reach::SharedMissing));
    }
    found.extend(places.fills(used).then_some(Reach::Filled));
    found
}
