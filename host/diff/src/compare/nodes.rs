//! Our resident nodes against the other side's of the same paths: stack, mark, count, and a loaded directory's children fully.

use super::{Divergence, Pairing, What};
use crate::side::{ROOT, Standing, View};
use std::collections::HashMap;

/// The other side's number for each of our resident nodes.
pub type Pairs = HashMap<u64, u64>;

/// Walks our nodes from the root down. The other side may have loaded more (difference 10): what is not resident here is not compared.
pub fn compare_nodes(ours: &Standing, rust: &Standing, pairing: &Pairing) -> Result<Pairs, Divergence> {
    let mut pairs = Pairs::from([(ROOT, ROOT)]);
    let mut next = vec![(ROOT, ROOT)];
    while let Some((a, b)) = next.pop() {
        let (Some(a), Some(b)) = (ours.nodes.get(&a), rust.nodes.get(&b)) else {
            return Err(Divergence::new(What::Missing, format!("node {a} here, {b} there: one of them is not resident")));
        };
        compare_views(a, b, pairing)?;
        for (name, child) in &a.children {
            let other = b.child(name).ok_or_else(|| missing(name))?;
            pairs.insert(*child, other);
            next.push((*child, other));
        }
    }
    if pairs.len() != ours.nodes.len() {
        return Err(Divergence::new(What::Children, "a node of ours is no child of its parent".to_string()));
    }
    Ok(pairs)
}

fn missing(name: &[u8]) -> Divergence {
    Divergence::new(What::Missing, format!("`{}` has a node here alone", overlay::text::name(name)))
}

/// Two nodes of one path, their children's own fields left out.
pub fn compare_views(a: &View, b: &View, pairing: &Pairing) -> Result<(), Divergence> {
    let differ = |what, ours: String, rust: String| {
        Err(Divergence::new(what, format!("node `{}`: {ours} here, {rust} there", overlay::text::name(&a.name))))
    };
    if a.stack.iter().map(|r| pairing.of(*r)).ne(b.stack.iter().copied()) {
        return differ(What::Stack, format!("stack {:?}", a.stack), format!("{:?}", b.stack));
    }
    if a.whiteout != b.whiteout {
        return differ(What::Whiteout, format!("whiteout {}", a.whiteout), b.whiteout.to_string());
    }
    if a.count != b.count {
        return differ(What::Count, format!("count {}", a.count), b.count.to_string());
    }
    let names = |v: &View| v.children.iter().map(|(n, _)| overlay::text::name(n)).collect::<Vec<_>>();
    if a.loaded && (!b.loaded || a.children.iter().map(|c| &c.0).ne(b.children.iter().map(|c| &c.0))) {
        return differ(What::Children, format!("loaded with {:?}", names(a)), format!("loaded {} with {:?}", b.loaded, names(b)));
    }
    Ok(())
}
