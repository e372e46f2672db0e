//! The calls that write, each on a copy of tables and state.

use crate::case::{Case, pick};
use crate::clock::Side;
use overlay::{Kind, Overlay, ROOT};
use std::hint::black_box;

/// A call of each new name in the root, in turn.
fn creation(case: &Case, call: fn(&mut Overlay, &[u8]) -> u64) -> Side<'_> {
    let (join, new) = (case.ours(), case.new_names());
    Side::on_copies(
        move || join.clone(),
        move |join, i| {
            black_box(call(join, black_box(&pick(&new, i)[..])));
        },
    )
}

pub fn create(case: &Case) -> Side<'_> {
    creation(case, |join, name| join.create(ROOT, name, 0o666, 0o022).expect("a new name"))
}

pub fn mknod(case: &Case) -> Side<'_> {
    creation(case, |join, name| join.mknod(ROOT, name, Kind::Character.number(), 0o666, 0o022, 259).expect("a new name"))
}

pub fn symlink(case: &Case) -> Side<'_> {
    creation(case, |join, name| join.symlink(ROOT, name, 77).expect("a new name"))
}

/// Of the upper layer's files, so that nothing is copied up.
pub fn link(case: &Case) -> Side<'_> {
    let (mut join, new) = (case.ours(), case.new_names());
    let sources: Vec<u64> = case.upper_names().iter().map(|n| join.lookup(ROOT, n).expect("a name of the root")).collect();
    Side::on_copies(
        move || join.clone(),
        move |join, i| {
            black_box(join.link(*pick(&sources, i), ROOT, black_box(&pick(&new, i)[..])).expect("a new name"));
        },
    )
}

/// Every name in turn.
pub fn copy_up(case: &Case) -> Side<'_> {
    let mut join = case.ours();
    let nodes: Vec<u64> = case.names.iter().map(|n| join.lookup(ROOT, n).expect("a name of the root")).collect();
    Side::on_copies(move || join.clone(), move |join, i| join.copy_up(black_box(*pick(&nodes, i))).expect("a copy-up"))
}
