//! The calls of this library, through its safe face.

mod writes;

pub use writes::{copy_up, create, link, mknod, symlink};

use crate::case::{ABSENT, Case, NEAR, Turn};
use crate::clock::{Side, timed};
use overlay::ROOT;
use std::hint::black_box;

/// The whole root's listing has room in it: 257 entries of at most 56 bytes.
const BUFFER: usize = 16384;

pub fn import(case: &Case) -> Side<'_> {
    let mut join = case.ours();
    Side::alike(move |calls| timed(calls, || black_box(&mut join).again().expect("an import")))
}

/// Every name in turn.
pub fn lookup_hit(case: &Case) -> Side<'_> {
    let (mut join, mut turn) = (case.ours(), Turn::new(case.names.len()));
    Side::turning(case.names.len(), move |calls| {
        timed(calls, || {
            let name = black_box(&case.names[turn.next()][..]);
            black_box(join.lookup(ROOT, name).expect("a name of the root"));
        })
    })
}

fn absent<'a>(case: &'a Case, name: &'static [u8]) -> Side<'a> {
    let mut join = case.ours();
    Side::alike(move |calls| {
        timed(calls, || {
            black_box(join.lookup(ROOT, black_box(name)).expect_err("a name that is not there"));
        })
    })
}

pub fn lookup_miss(case: &Case) -> Side<'_> {
    absent(case, ABSENT)
}

pub fn lookup_near(case: &Case) -> Side<'_> {
    absent(case, NEAR)
}

pub fn count(case: &Case) -> Side<'_> {
    let mut join = case.ours();
    Side::alike(move |calls| {
        timed(calls, || {
            black_box(join.count(black_box(ROOT)).expect("the root's counts"));
        })
    })
}

pub fn listing(case: &Case) -> Side<'_> {
    let (mut join, mut buffer) = (case.ours(), vec![0; BUFFER]);
    Side::alike(move |calls| {
        timed(calls, || {
            black_box(join.list(black_box(ROOT), 0, BUFFER as u64, &mut buffer).expect("the root's listing"));
            black_box(&buffer);
        })
    })
}

/// Every node in turn; the round's lookups before it, which are not timed, keep each count above 0.
pub fn forget(case: &Case) -> Side<'_> {
    let mut join = case.ours();
    let nodes: Vec<u64> = case.names.iter().map(|n| join.lookup(ROOT, n).expect("a name of the root")).collect();
    Side::turning(case.names.len(), move |calls| {
        let (mut raised, mut lowered) = (Turn::new(nodes.len()), Turn::new(nodes.len()));
        (0..calls).for_each(|_| _ = join.lookup(ROOT, &case.names[raised.next()]));
        timed(calls, || join.forget(black_box(nodes[lowered.next()]), 1))
    })
}
