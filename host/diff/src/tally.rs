//! What a run did, counted: calls by name, answers by errno, listed differences met.

use crate::call::Which;
use crate::listed::Difference;
use crate::reach::Reach;
use crate::run::{Made, Step};
use crate::side::Answer;
use std::collections::BTreeMap;
use std::fmt;

/// The counts of a run.
#[derive(Clone, Default, Debug)]
pub struct Tally {
    pub cases: u64,
    pub calls: u64,
    pub diverged: u64,
    answers: BTreeMap<(Which, u32), u64>,
    met: BTreeMap<Difference, u64>,
    reached: BTreeMap<Reach, u64>,
}

impl Tally {
    /// Counts a call that was made and what came of it.
    pub fn call(&mut self, made: Option<&Made>, step: &Step) {
        let Some(made) = made else { return };
        let errno = if let Answer::Refused(errno) = made.ours { errno } else { 0 };
        self.calls += 1;
        *self.answers.entry((made.call.which(), errno)).or_default() += 1;
        made.reached.iter().for_each(|reach| *self.reached.entry(*reach).or_default() += 1);
        match step {
            Step::Agreed(Some(difference)) | Step::Listed(difference) => *self.met.entry(*difference).or_default() += 1,
            Step::Diverged(_) => self.diverged += 1,
            Step::Agreed(None) | Step::Skipped => {}
        }
    }

    /// How often a listed difference was met.
    pub fn met(&self, difference: Difference) -> u64 {
        self.met.get(&difference).copied().unwrap_or(0)
    }

    /// How often an accepted call that writes came upon something.
    pub fn reached(&self, reach: Reach) -> u64 {
        self.reached.get(&reach).copied().unwrap_or(0)
    }

    /// How often a call was answered with this errno, 0 for success.
    pub fn answered(&self, which: Which, errno: u32) -> u64 {
        self.answers.get(&(which, errno)).copied().unwrap_or(0)
    }

    /// The last line: what was run, and whether anything was found.
    pub fn last_line(&self, run: &str) -> String {
        format!("{run}: {} cases, {} calls, {} unlisted divergences", self.cases, self.calls, self.diverged)
    }
}

/// A line for each call with its answers by errno, then one for each thing that the calls that write came upon and each listed difference.
impl fmt::Display for Tally {
    fn fmt(&self, f: &mut fmt::Formatter<'_>) -> fmt::Result {
        writeln!(f, "cases {}", self.cases)?;
        for which in Which::ALL {
            let answers: Vec<_> = self.answers.iter().filter(|((w, _), _)| *w == which).collect();
            let all: u64 = answers.iter().map(|(_, n)| *n).sum();
            if all > 0 {
                let by: Vec<String> = answers.iter().map(|((_, errno), n)| format!("errno {errno}: {n}")).collect();
                writeln!(f, "calls {:<8} {all:>9}  {}", which.word(), by.join(", "))?;
            }
        }
        self.reached.iter().try_for_each(|(reach, n)| writeln!(f, "accepted with {reach}: {n}"))?;
        self.met.iter().try_for_each(|(difference, n)| writeln!(f, "listed {difference}: {n}"))
    }
}
