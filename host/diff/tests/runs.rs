//! Short runs of every sort.

mod common;

use common::sides;
use diff::call::{CALLS, Call, Which};
use diff::case::Layers;
use diff::cases::{Plan, random_runs};
use diff::compare::page_of;
use diff::generate::{Mode, layers_of, next_call};
use diff::listed::{Difference, rule};
use diff::need::Before;
use diff::random::Random;
use diff::reach::Reach;
use diff::run::{Run, Step};
use diff::side::{Answer, Dirent, Side, Sides, Standing};
use diff::tally::Tally;
use overlay::{Entry, Table};
use std::collections::BTreeMap;
use std::rc::Rc;

/// No divergence, and every answer that the calls have is met, as is every listed difference of theirs.
#[test]
fn random_cases_agree() {
    let Some(sides) = sides() else { return };
    let mut tally = Tally::default();
    let plan = Plan { cases: 3000, seed: 7, time: None, calls: CALLS.to_vec() };
    let diverged = random_runs(sides, &plan, &mut tally);
    assert!(diverged.is_none(), "{diverged:?}");
    let creation = vec![0, 2, 17, 20, 22, 23, 28, 30, 36];
    let answers = [
        (Which::Lookup, vec![0, 2, 20, 22, 23]),
        (Which::Count, vec![0, 2, 20, 23]),
        (Which::List, vec![0, 2, 20, 23]),
        (Which::Mknod, [creation.clone(), vec![1]].concat()),
        (Which::Create, creation.clone()),
        (Which::Symlink, creation.clone()),
        (Which::Link, [creation, vec![1]].concat()),
        (Which::CopyUp, vec![0, 2, 28, 30]),
    ];
    for (which, numbers) in answers {
        assert!(numbers.iter().all(|errno| tally.answered(which, *errno) > 0), "{which}\n{tally}");
    }
    assert!(Reach::ALL.iter().all(|reach| tally.reached(*reach) > 0), "{tally}");
    // 9 asks for a full upper layer with a whiteout that shares nothing: the long runs meet it, and it has its own test.
    let rare = [Difference::LinkWhiteoutLate, Difference::NoLayer];
    assert!(Difference::ALL.iter().all(|d| rare.contains(d) || tally.met(*d) > 0), "{tally}");
}

/// One seed gives one run.
#[test]
fn a_run_can_be_repeated() {
    let Some(sides) = sides() else { return };
    let plan = Plan { cases: 50, seed: 3, time: None, calls: CALLS.to_vec() };
    let tallies = [(); 2].map(|()| {
        let mut tally = Tally::default();
        assert!(random_runs(sides, &plan, &mut tally).is_none());
        tally.to_string()
    });
    assert_eq!(tallies[0], tallies[1]);
}

/// The Rust with its listings in our order and cut into pages.
struct Paged(Box<dyn Side>);

impl Side for Paged {
    fn call(&mut self, call: &Call<u64>) -> Answer {
        match (call, self.0.call(call)) {
            (Call::List { node, offset, size, buffer }, Answer::Page(_)) if *size > 0 => {
                Answer::Page(page_of(&self.whole(*node), *offset, *size, *buffer))
            }
            (_, answer) => answer,
        }
    }

    fn standing(&self) -> Standing {
        self.0.standing()
    }

    fn whole(&self, node: u64) -> Vec<Dirent> {
        let mut whole = self.0.whole(node);
        whole.sort_by_key(|d| (d.name != b".", d.name != b"..", d.name.clone()));
        whole.iter_mut().zip(1..).for_each(|(d, offset)| d.offset = offset);
        whole
    }
}

/// The same tree with its records at other places.
fn shuffled(table: &Table) -> Table {
    let mut places: Vec<usize> = (2..=128).collect();
    Random::new(5).shuffle(&mut places);
    let to = |place: usize| if place == 1 { 1 } else { places[place - 2] };
    let mut other = Table::empty();
    table.records().for_each(|(place, record)| other.put_record(to(place), &record));
    for (place, e) in table.entries() {
        other.put_entry(place, &Entry { parent: to(e.parent.into()) as u8, child: to(e.child.into()) as u8, name: e.name });
    }
    other
}

/// Every call, those that write too, with the Rust on both sides, its upper records at other places in ours: the sides agree, except
/// where a rule of the listed differences says that the Rust is not to be followed. So what the rules leave out, refusals of the Rust that
/// change something included, is in no case a difference.
#[test]
fn the_rust_agrees_with_itself_except_at_listed_differences() {
    let Some(sides) = sides() else { return };
    let renamed = |layers: &Rc<Layers>| -> Box<dyn Side> {
        let layers = Layers { upper: layers.upper.as_ref().map(shuffled), lower: layers.lower.clone() };
        Box::new(Paged((sides.rust)(&Rc::new(layers))))
    };
    let sides = Sides { ours: &renamed, rust: sides.rust };
    let (mut met, mut calls) = (BTreeMap::new(), BTreeMap::new());
    for seed in 0..1500 {
        let mut random = Random::new(seed);
        // A full upper layer in every second case, since most of these differences need one.
        let mode = if seed % 2 == 0 { Mode::Full } else { Mode::Few };
        let layers = Rc::new(layers_of(&mut random, mode));
        let mut run = Run::new(sides, &layers);
        let mut call = Call::Import;
        for _ in 0..12 {
            let numbered = run.numbered(&call).expect("a resident node");
            if let Some(listed) = rule(&Before { standing: run.standing(), layers: &layers }, &numbered) {
                *met.entry(listed.difference).or_insert(0) += 1;
                break;
            }
            let (_, step) = run.step(&call);
            assert!(matches!(step, Step::Agreed(_)), "seed {seed}, {call:?}: {step:?}");
            *calls.entry(call.which()).or_insert(0) += 1;
            call = next_call(&mut random, &Which::ALL, run.standing(), &layers);
        }
    }
    assert!(Which::ALL.iter().all(|which| calls.contains_key(which)), "{calls:?}");
    // 9 asks for 128 records, 127 entries and a whiteout that shares nothing: it has its own test.
    let writing = [
        Difference::CreationInLowerFile,
        Difference::LongNameLate,
        Difference::FullInMidCall,
        Difference::FullAfterWhiteout,
        Difference::LinkRefusedLate,
        Difference::LinkNameLate,
    ];
    assert!(writing.iter().all(|difference| met.contains_key(difference)), "{met:?}");
}
