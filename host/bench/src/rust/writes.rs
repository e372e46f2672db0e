//! The calls that write, each on an import of its own, as the Rust's nodes cannot be copied.

use super::imported;
use crate::case::{Case, pick};
use crate::clock::Side;
use oracle::Oracle;
use overlay::{Kind, ROOT};
use std::hint::black_box;

/// A call of each new name in the root, in turn.
fn creation(case: &Case, call: fn(&Oracle, &[u8]) -> u64) -> Side<'_> {
    let new = case.new_names();
    Side::on_copies(
        move || imported(case),
        move |join, i| {
            black_box(call(join, black_box(&pick(&new, i)[..])));
        },
    )
}

pub fn create(case: &Case) -> Side<'_> {
    creation(case, |join, name| join.create(ROOT, name, 0o666, 0o022).expect("a new name"))
}

pub fn mknod(case: &Case) -> Side<'_> {
    creation(case, |join, name| join.mknod(ROOT, name, Kind::Character.number(), 0o666, 0o022, 259).expect("a new name"))
}

pub fn symlink(case: &Case) -> Side<'_> {
    creation(case, |join, name| join.symlink(ROOT, name, 77).expect("a new name"))
}

/// The root's nodes of these names, in an import and the lookups of each.
fn looked_up(case: &Case, names: &[Vec<u8>]) -> (Oracle, Vec<u64>) {
    let join = imported(case);
    let nodes = names.iter().map(|n| join.lookup(ROOT, n).expect("a name of the root")).collect();
    (join, nodes)
}

/// Of the upper layer's files, so that nothing is copied up.
pub fn link(case: &Case) -> Side<'_> {
    let (names, new) = (case.upper_names(), case.new_names());
    Side::on_copies(
        move || looked_up(case, &names),
        move |(join, sources), i| {
            black_box(join.link(*pick(sources, i), ROOT, black_box(&pick(&new, i)[..])).expect("a new name"));
        },
    )
}

/// Every name in turn.
pub fn copy_up(case: &Case) -> Side<'_> {
    Side::on_copies(
        move || looked_up(case, &case.names),
        move |(join, nodes), i| join.copy_up(black_box(*pick(nodes, i))).expect("a copy-up"),
    )
}
