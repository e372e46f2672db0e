//! The listed differences: each with the rule that recognises it at a call, what the Rust answers there and what document 01 asks of us.
//! A rule looks at the call and at what stands before it, never at our answer: an answer of ours that the list does not ask for is a
//! divergence even where the Rust agrees with it.

use crate::call::{Call, Which};
use crate::need::{self, Before, NAME};
use crate::side::Answer;
use std::fmt;

/// A listed difference between document 01 and the Rust. Those with a number have it from the list's order; the others lie outside the
/// domain of the random runs.
#[derive(Clone, Copy, PartialEq, Eq, PartialOrd, Ord, Hash, Debug)]
pub enum Difference {
    /// 1: lookup in a node that is no directory.
    LookupInFile,
    /// 2: count of a whiteout.
    CountOfWhiteout,
    /// 2: count of a directory that is not loaded; no stop, as the driver loads it first.
    CountDoesNotLoad,
    /// 3: a creation in a lower file copies it up and is then refused.
    CreationInLowerFile,
    /// 4: 36 after directories were made.
    LongNameLate,
    /// 5: 28 in mid-call, what was made stays.
    FullInMidCall,
    /// 6: 28 after the whiteout is gone.
    FullAfterWhiteout,
    /// 7: a link refused after copying up.
    LinkRefusedLate,
    /// 8: link tests a live name last.
    LinkNameLate,
    /// 9: link deletes the whiteout late.
    LinkWhiteoutLate,
    /// 10: lookup also loads the directory that it finds; no stop, as only what is resident here is compared.
    LookupLoads,
    /// 11: no limit of nodes.
    NoNodeLimit,
    /// An import of no layer.
    NoLayer,
    /// A malformed name, outside the domain.
    MalformedName,
    /// mknod of a whiteout, outside the domain.
    WhiteoutMade,
}

impl Difference {
    /// Every difference, in the list's order.
    pub const ALL: [Difference; 15] = [
        Difference::LookupInFile,
        Difference::CountOfWhiteout,
        Difference::CountDoesNotLoad,
        Difference::CreationInLowerFile,
        Difference::LongNameLate,
        Difference::FullInMidCall,
        Difference::FullAfterWhiteout,
        Difference::LinkRefusedLate,
        Difference::LinkNameLate,
        Difference::LinkWhiteoutLate,
        Difference::LookupLoads,
        Difference::NoNodeLimit,
        Difference::NoLayer,
        Difference::MalformedName,
        Difference::WhiteoutMade,
    ];

    /// Its number in the list, and what it is about.
    pub fn said(self) -> (&'static str, &'static str) {
        match self {
            Difference::LookupInFile => ("1", "lookup in a node that is no directory"),
            Difference::CountOfWhiteout => ("2", "count of a whiteout"),
            Difference::CountDoesNotLoad => ("2", "count of a directory that is not loaded"),
            Difference::CreationInLowerFile => ("3", "creation in a lower file"),
            Difference::LongNameLate => ("4", "36 after making directories"),
            Difference::FullInMidCall => ("5", "28 in mid-call"),
            Difference::FullAfterWhiteout => ("6", "28 after the whiteout is gone"),
            Difference::LinkRefusedLate => ("7", "link refused after copying up source and parent"),
            Difference::LinkNameLate => ("8", "link tests a live name last"),
            Difference::LinkWhiteoutLate => ("9", "link deletes the whiteout late"),
            Difference::LookupLoads => ("10", "lookup also loads the directory that it finds"),
            Difference::NoNodeLimit => ("11", "no limit of nodes"),
            Difference::NoLayer => ("-", "import of no layer"),
            Difference::MalformedName => ("-", "a malformed name"),
            Difference::WhiteoutMade => ("-", "mknod of a whiteout"),
        }
    }
}

impl fmt::Display for Difference {
    fn fmt(&self, f: &mut fmt::Formatter<'_>) -> fmt::Result {
        let (number, about) = self.said();
        write!(f, "{number} {about}")
    }
}

/// What a side has to answer where a difference is met.
#[derive(Clone, Copy, PartialEq, Eq, Debug)]
pub enum Expected {
    /// One of these refusals.
    Refused(&'static [u32]),
    Accepted,
    /// Whatever its text makes of an argument outside the domain.
    Any,
}

impl Expected {
    pub fn met_by(self, answer: &Answer) -> bool {
        match (self, answer) {
            (Expected::Any, _) => true,
            (Expected::Accepted, answer) => !matches!(answer, Answer::Refused(_)),
            (Expected::Refused(numbers), Answer::Refused(errno)) => numbers.contains(errno),
            (Expected::Refused(_), _) => false,
        }
    }
}

/// A difference met at a call, with what each side has to answer.
#[derive(Clone, Copy, PartialEq, Eq, Debug)]
pub struct Met {
    pub difference: Difference,
    pub ours: Expected,
    pub rust: Expected,
}

fn met(difference: Difference, ours: &'static [u32], rust: Expected) -> Option<Met> {
    Some(Met { difference, ours: Expected::Refused(ours), rust })
}

/// The first listed difference of a call in the order of document 01's tests, given what stands before it.
pub fn rule(b: &Before, call: &Call<u64>) -> Option<Met> {
    match call.which() {
        Which::Import => import(b),
        Which::Lookup => lookup(b, call),
        Which::Count => count(b, call),
        Which::List => list(b, call),
        Which::Mknod | Which::Create | Which::Symlink => creation(b, call),
        Which::Link => link(b, call),
        Which::CopyUp => copy_up(b, call),
        Which::Forget | Which::Node => None,
    }
}

/// A name that document 01 refuses with 22: empty, with a byte 0 or "/", "." or "..".
pub fn is_malformed(name: &[u8]) -> bool {
    name.is_empty() || name == b"." || name == b".." || name.iter().any(|c| *c == 0 || *c == b'/')
}

fn import(b: &Before) -> Option<Met> {
    if b.layers.upper.is_none() && b.layers.lower.is_empty() {
        return met(Difference::NoLayer, &[22], Expected::Refused(&[2]));
    }
    if b.import_overflows() {
        return met(Difference::NoNodeLimit, &[23], Expected::Accepted);
    }
    None
}

fn lookup(b: &Before, call: &Call<u64>) -> Option<Met> {
    let (parent, name) = (*call.about()?, call.name()?);
    // A "/" is the one malformed name that the Rust refuses by the same number.
    if is_malformed(name) && !name.contains(&b'/') {
        return met(Difference::MalformedName, &[22], Expected::Any);
    }
    b.live(parent)?;
    if is_malformed(name) {
        None
    } else if !b.is_directory(parent) {
        met(Difference::LookupInFile, &[20], Expected::Refused(&[2]))
    } else if b.load_overflows(parent) {
        met(Difference::NoNodeLimit, &[23], Expected::Any)
    } else {
        None
    }
}

fn count(b: &Before, call: &Call<u64>) -> Option<Met> {
    let node = *call.about()?;
    if b.node(node)?.whiteout {
        met(Difference::CountOfWhiteout, &[2], Expected::Refused(&[20]))
    } else if b.is_directory(node) && b.load_overflows(node) {
        met(Difference::NoNodeLimit, &[23], Expected::Accepted)
    } else {
        None
    }
}

fn list(b: &Before, call: &Call<u64>) -> Option<Met> {
    let Call::List { node, size, .. } = call else { return None };
    b.live(*node)?;
    if *size > 0 && b.is_directory(*node) && b.load_overflows(*node) {
        return met(Difference::NoNodeLimit, &[23], Expected::Accepted);
    }
    None
}

/// mknod, create and symlink: 22, 2, 30, 2, 20, load (23), 17, 1, 36, 23, 28.
fn creation(b: &Before, call: &Call<u64>) -> Option<Met> {
    let (parent, name) = (*call.about()?, call.name()?);
    let reaches_name = b.live(parent).is_some() && b.standing.upper.is_some();
    if is_malformed(name) {
        // Behind its other tests the Rust refuses a "/" by the same number.
        let same = name.contains(&b'/') && reaches_name;
        return if same { None } else { met(Difference::MalformedName, &[22], Expected::Any) };
    }
    let above = b.live(parent).filter(|_| reaches_name)?;
    if !b.is_directory(parent) {
        return if above.is_upper() { None } else { met(Difference::CreationInLowerFile, &[20], Expected::Refused(&[20, 28])) };
    }
    if b.load_overflows(parent) {
        return met(Difference::NoNodeLimit, &[23], Expected::Any);
    }
    if b.is_live_name(parent, name) {
        return None;
    }
    if matches!(call, Call::Mknod { kind: 2, device: 0, .. }) {
        return met(Difference::WhiteoutMade, &[1], Expected::Any);
    }
    if name.len() > NAME {
        return if above.is_upper() { None } else { met(Difference::LongNameLate, &[36], Expected::Refused(&[36, 28])) };
    }
    if b.name_overflows(parent, name) {
        return met(Difference::NoNodeLimit, &[23], Expected::Any);
    }
    full(b, call)
}

/// 28 where the Rust has already changed the upper layer: 5 and 6.
fn full(b: &Before, call: &Call<u64>) -> Option<Met> {
    let places = need::places(b, call);
    if !places.overflow(need::used(b.standing)) {
        None
    } else if places.copies > 0 {
        met(Difference::FullInMidCall, &[28], Expected::Refused(&[28]))
    } else if places.whiteout {
        met(Difference::FullAfterWhiteout, &[28], Expected::Refused(&[28]))
    } else {
        None
    }
}

/// link: 22, 2, 30, 2, 1, 20, load (23), 17, 36, 23, 28.
fn link(b: &Before, call: &Call<u64>) -> Option<Met> {
    let Call::Link { source, parent, name } = call else { return None };
    if is_malformed(name) {
        return met(Difference::MalformedName, &[22], Expected::Any);
    }
    b.standing.upper.as_ref()?;
    let (from, above) = (b.live(*source)?, b.live(*parent)?);
    if b.is_directory(*source) {
        return None;
    }
    let copies = !from.is_upper() || !above.is_upper();
    if !b.is_directory(*parent) {
        return if copies { met(Difference::LinkRefusedLate, &[20], Expected::Refused(&[20, 28])) } else { None };
    }
    if b.load_overflows(*parent) {
        return met(Difference::NoNodeLimit, &[23], Expected::Any);
    }
    if b.is_live_name(*parent, name) {
        return if copies { met(Difference::LinkNameLate, &[17], Expected::Refused(&[17, 28])) } else { None };
    }
    if name.len() > NAME {
        return if copies { met(Difference::LinkRefusedLate, &[36], Expected::Refused(&[36, 28])) } else { None };
    }
    if b.name_overflows(*parent, name) {
        return met(Difference::NoNodeLimit, &[23], Expected::Any);
    }
    late_deletion(b, call).or_else(|| full(b, call))
}

/// 9: document 01 counts the whiteout's places as free, the Rust deletes it after the copies.
fn late_deletion(b: &Before, call: &Call<u64>) -> Option<Met> {
    let (places, used) = (need::places(b, call), need::used(b.standing));
    let late = places.whiteout && !places.overflow(used) && places.overflow_before_deletion(used);
    late.then_some(Met { difference: Difference::LinkWhiteoutLate, ours: Expected::Accepted, rust: Expected::Refused(&[28]) })
}

fn copy_up(b: &Before, call: &Call<u64>) -> Option<Met> {
    b.live(*call.about()?)?;
    b.standing.upper.as_ref()?;
    // A copy-up of one record changes nothing before its 28.
    if need::places(b, call).copies > 1 { full(b, call) } else { None }
}
