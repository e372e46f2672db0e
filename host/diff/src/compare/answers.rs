//! The answers of one call.

use super::listing::{compare_page, compare_whole};
use super::nodes::compare_views;
use super::{Divergence, Pairing, Pairs, What};
use crate::call::Call;
use crate::side::{Answer, Dirent, Standing, View};

/// What an answer is judged by: the call with our numbers, what we have after it, and how the sides match.
pub struct Judged<'a> {
    pub call: &'a Call<u64>,
    pub ours: &'a Standing,
    pub pairing: &'a Pairing,
    pub pairs: &'a Pairs,
}

/// Refusals by number, nodes by path, counts exactly, listings as sets. `whole` is our whole listing, asked where a page is judged.
pub fn compare_answers(j: &Judged, ours: &Answer, rust: &Answer, whole: impl Fn(u64) -> Vec<Dirent>) -> Result<(), Divergence> {
    let errno = |a: &Answer| if let Answer::Refused(errno) = a { *errno } else { 0 };
    match (ours, rust) {
        (Answer::Refused(a), Answer::Refused(b)) if a == b => Ok(()),
        (Answer::Refused(_), _) | (_, Answer::Refused(_)) => {
            let what = What::Errno { ours: errno(ours), rust: errno(rust) };
            Err(Divergence::new(what, format!("{ours} here, {rust} there")))
        }
        (Answer::Node(a), Answer::Node(b)) => node(j, *a, *b),
        (Answer::Count { .. }, Answer::Count { .. }) if ours == rust => Ok(()),
        (Answer::Done, Answer::Done) => Ok(()),
        (Answer::Seen(a), Answer::Seen(b)) => seen(j, a, b),
        (Answer::Page(page), Answer::Page(all)) => {
            let Call::List { node, offset, size, buffer } = j.call else { unreachable!("only a listing answers a page") };
            let whole = if *size == 0 { Vec::new() } else { whole(*node) };
            compare_page(page, &whole, *offset, *size, *buffer)?;
            if *size == 0 { Ok(()) } else { compare_whole(*node, &whole, &all.entries, j.ours, j.pairing) }
        }
        _ => Err(Divergence::new(What::Answer, format!("{ours} here, {rust} there"))),
    }
}

/// The nodes answered are those of one path.
fn node(j: &Judged, a: u64, b: u64) -> Result<(), Divergence> {
    if j.pairs.get(&a) == Some(&b) {
        return Ok(());
    }
    let name = |number: Option<u64>| number.and_then(|n| j.ours.nodes.get(&n)).map_or("no node".into(), |v| overlay::text::name(&v.name));
    let paired = j.pairs.iter().find(|(_, there)| **there == b).map(|(here, _)| *here);
    Err(Divergence::new(What::Answer, format!("node {a} here is `{}`, node {b} there `{}`", name(Some(a)), name(paired))))
}

/// The node that the call answers is the one that stands in the state, and the other side's node of that path. Its children are no part
/// of the answer: they are compared with the rest of what stands.
fn seen(j: &Judged, a: &View, b: &View) -> Result<(), Divergence> {
    let alone = |v: &View| View { children: Vec::new(), loaded: false, ..v.clone() };
    let stands = j.ours.nodes.get(&a.number).is_some_and(|v| alone(v) == alone(a) && v.loaded == a.loaded);
    if !stands || j.pairs.get(&a.number) != Some(&b.number) {
        let words = format!("node {} here is not what stands in the state, or not node {} there", a.number, b.number);
        return Err(Divergence::new(What::Answer, words));
    }
    compare_views(&alone(a), b, j.pairing).map_err(|d| Divergence::new(What::Answer, d.words))
}
