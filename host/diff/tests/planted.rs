//! Errors planted in the library's answers are noticed, and shrink to a case that replay lines tell.

mod common;

use common::{case, sides};
use diff::call::CALLS;
use diff::case::Layers;
use diff::cases::{Plan, random_runs};
use diff::planted::Planted;
use diff::run::run_case;
use diff::shrink::shrink;
use diff::side::{Side, Sides};
use diff::tally::Tally;
use diff::text::told;
use std::rc::Rc;

/// Within 1,000 cases; the shrunk case has at most two layers, four entries and three calls, and its lines show the same again.
#[track_caller]
fn noticed(planted: Planted) {
    let Some(sides) = sides() else { return };
    let ours = |layers: &Rc<Layers>| -> Box<dyn Side> { planted.side(layers) };
    let sides = Sides { ours: &ours, ..sides };
    let plan = Plan { cases: 1000, seed: 1, time: None, calls: CALLS.to_vec() };
    let diverged = random_runs(sides, &plan, &mut Tally::default()).expect("noticed within 1,000 cases");
    let small = shrink(sides, &diverged.case, &diverged.found);
    let tables: Vec<_> = small.layers.upper.iter().chain(&small.layers.lower).collect();
    let entries: usize = tables.iter().map(|t| t.entries().count()).sum();
    assert!(tables.len() <= 2 && entries <= 4 && small.calls.len() <= 3, "{}", told(sides, &small));
    let again = run_case(sides, &case(&told(sides, &small)), |_, _| {}).expect("the lines diverge too");
    assert_eq!(again.divergence.what, diverged.found.divergence.what);
}

#[test]
fn planted_1_lookup_answers_the_next_name() {
    noticed(Planted::LookupOfNextName);
}

#[test]
fn planted_2_a_count_is_one_whiteout_short() {
    noticed(Planted::CountOfWhiteouts);
}

#[test]
fn planted_3_a_stack_ends_before_an_opaque_directory() {
    noticed(Planted::OpaqueDropped);
}

#[test]
fn planted_4_a_whiteout_is_listed() {
    noticed(Planted::WhiteoutListed);
}

#[test]
fn planted_5_refusal_20_is_given_as_2() {
    noticed(Planted::RefusalNumber);
}

#[test]
fn planted_6_an_inode_is_the_lower_records() {
    noticed(Planted::LowerInode);
}

#[test]
fn planted_7_a_directory_is_copied_up_with_its_opaque_mark() {
    noticed(Planted::OpaqueCopied);
}

#[test]
fn planted_8_a_copied_up_file_keeps_its_lower_record() {
    noticed(Planted::StackKept);
}
