//! Time a call: the best of several rounds, each of many calls, the two sides taking turns.

use std::time::{Duration, Instant};

/// One side of a measure.
pub struct Side<'a> {
    /// A round is whole turns of so many calls, so that every round does the same.
    turn: usize,
    /// How long a round is to take at least.
    least: Duration,
    /// Makes so many calls and answers how long they took.
    run: Box<dyn FnMut(usize) -> Duration + 'a>,
}

/// How many rounds a side gets, and how long one is to take at least: short enough to end before the machine gives its core away.
const ROUNDS: usize = 100;
const LEAST: Duration = Duration::from_micros(300);

/// A round of calls on copies has so many: few enough for a core's second cache, and enough to make the clock's own time small.
pub const COPIES: usize = 10;

/// How long `calls` calls take, one after another.
pub fn timed(calls: usize, mut call: impl FnMut()) -> Duration {
    let start = Instant::now();
    for _ in 0..calls {
        call();
    }
    start.elapsed()
}

impl<'a> Side<'a> {
    /// Calls that are all alike.
    pub fn alike(run: impl FnMut(usize) -> Duration + 'a) -> Side<'a> {
        Side { turn: 1, least: LEAST, run: Box::new(run) }
    }

    /// Calls that go round `turn` names.
    pub fn turning(turn: usize, run: impl FnMut(usize) -> Duration + 'a) -> Side<'a> {
        Side { turn, least: LEAST, run: Box::new(run) }
    }

    /// Calls that change what they are made on, each on a copy of its own: a round's copies are made before its time and dropped after it.
    pub fn on_copies<T>(mut copy: impl FnMut() -> T + 'a, mut call: impl FnMut(&mut T, usize) + 'a) -> Side<'a> {
        let run = move |calls| {
            let mut copies: Vec<T> = (0..calls).map(|_| copy()).collect();
            let start = Instant::now();
            copies.iter_mut().enumerate().for_each(|(i, c)| call(c, i));
            start.elapsed()
        };
        Side { turn: COPIES, least: Duration::ZERO, run: Box::new(run) }
    }

    /// How many calls make a round long enough, by the quickest of three, as one alone may have been interrupted; trying it warms up.
    fn calls_in_a_round(&mut self) -> usize {
        let mut calls = self.turn;
        while (0..3).map(|_| (self.run)(calls)).any(|time| time < self.least) {
            calls *= 2;
        }
        calls
    }
}

/// Each side's nanoseconds a call. The rounds alternate, so that what slows the machine for a while slows both.
pub fn best(sides: &mut [Side]) -> Vec<f64> {
    let calls: Vec<usize> = sides.iter_mut().map(Side::calls_in_a_round).collect();
    let mut least = vec![f64::INFINITY; sides.len()];
    for _ in 0..ROUNDS {
        for (i, side) in sides.iter_mut().enumerate() {
            least[i] = least[i].min((side.run)(calls[i]).as_nanos() as f64 / calls[i] as f64);
        }
    }
    least
}

#[cfg(test)]
mod tests {
    use super::*;

    #[test]
    fn each_call_has_a_copy_of_its_own() {
        let mut side = Side::on_copies(
            || 0,
            |copy, i| {
                assert_eq!((*copy, i < COPIES), (0, true));
                *copy += 1;
            },
        );
        assert_eq!(side.calls_in_a_round(), COPIES);
    }
}
