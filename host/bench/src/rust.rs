//! The same calls of the given Rust text, through the oracle; its test layer's share is included.

mod writes;

pub use writes::{copy_up, create, link, mknod, symlink};

use crate::case::{ABSENT, Case, NEAR, Turn};
use crate::clock::{Side, timed};
use oracle::Oracle;
use overlay::ROOT;
use std::hint::black_box;
use std::time::{Duration, Instant};

fn imported(case: &Case) -> Oracle {
    let (upper, lower) = case.bytes();
    Oracle::import(Some(upper), &lower).expect("good layers")
}

/// What an import made is dropped outside the time.
pub fn import(case: &Case) -> Side<'_> {
    Side::alike(move |calls| {
        let mut time = Duration::ZERO;
        for _ in 0..calls {
            let start = Instant::now();
            let join = black_box(imported(black_box(case)));
            time += start.elapsed();
            drop(join);
        }
        time
    })
}

pub fn lookup_hit(case: &Case) -> Side<'_> {
    let (join, mut turn) = (imported(case), Turn::new(case.names.len()));
    Side::turning(case.names.len(), move |calls| {
        timed(calls, || {
            let name = black_box(&case.names[turn.next()][..]);
            black_box(join.lookup(ROOT, name).expect("a name of the root"));
        })
    })
}

fn absent<'a>(case: &'a Case, name: &'static [u8]) -> Side<'a> {
    let join = imported(case);
    Side::alike(move |calls| {
        timed(calls, || {
            black_box(join.lookup(ROOT, black_box(name)).expect_err("a name that is not there"));
        })
    })
}

pub fn lookup_miss(case: &Case) -> Side<'_> {
    absent(case, ABSENT)
}

pub fn lookup_near(case: &Case) -> Side<'_> {
    absent(case, NEAR)
}

pub fn count(case: &Case) -> Side<'_> {
    let join = imported(case);
    Side::alike(move |calls| {
        timed(calls, || {
            black_box(join.count(black_box(ROOT)).expect("the root's counts"));
        })
    })
}

/// Its entries are only counted, where ours are written.
pub fn listing(case: &Case) -> Side<'_> {
    let join = imported(case);
    Side::alike(move |calls| {
        timed(calls, || {
            black_box(join.list_count(black_box(ROOT)).expect("the root's listing"));
        })
    })
}

pub fn forget(case: &Case) -> Side<'_> {
    let join = imported(case);
    let nodes: Vec<u64> = case.names.iter().map(|n| join.lookup(ROOT, n).expect("a name of the root")).collect();
    Side::turning(case.names.len(), move |calls| {
        let (mut raised, mut lowered) = (Turn::new(nodes.len()), Turn::new(nodes.len()));
        (0..calls).for_each(|_| _ = join.lookup(ROOT, &case.names[raised.next()]));
        timed(calls, || join.forget(black_box(nodes[lowered.next()]), 1))
    })
}
