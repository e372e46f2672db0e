//! The program's options.

use crate::call::{CALLS, Which};
use crate::planted::Planted;
use std::time::Duration;

/// What the program is asked for.
#[derive(Clone, PartialEq, Eq, Debug)]
pub struct Options {
    pub run: Run,
    pub cases: u64,
    pub seed: u64,
    pub time: Option<Duration>,
    pub mounts: u64,
    pub calls: Vec<Which>,
    pub planted: Option<Planted>,
}

/// Which run it is.
#[derive(Clone, PartialEq, Eq, Debug)]
pub enum Run {
    Random,
    Exhaustive,
    Kernel,
    /// One case, read from this file.
    Case(String),
}

/// How long a run is where neither its length nor its time is given.
const CASES: u64 = 10_000;
const MOUNTS: u64 = 1000;

/// What is printed where the options are not understood.
pub const USAGE: &str = "usage: diff [--cases N] [--seed S] [--seconds T] [--writes off] [--planted K]
       diff --exhaustive [--writes off] [--planted K]
       diff --kernel [--mounts N] [--seed S] [--seconds T] [--writes off]
       diff --case FILE
N cases (10000) from seed S (1) for at most T seconds; --writes off leaves out the calls that write; --planted K (1 to 8) falsifies one
of the library's answers; --case runs one case written as replay lines; --kernel compares N mounts (1000) with Linux's overlayfs.";

impl Options {
    /// Reads the words after the program's name. A run whose time is given and whose length is not goes on until the time is over.
    pub fn read(words: impl IntoIterator<Item = String>) -> Result<Options, String> {
        let mut options =
            Options { run: Run::Random, cases: CASES, seed: 1, time: None, mounts: MOUNTS, calls: CALLS.to_vec(), planted: None };
        let words: Vec<String> = words.into_iter().collect();
        if words.iter().any(|word| word == "--seconds") {
            (options.cases, options.mounts) = (u64::MAX, u64::MAX);
        }
        let mut rest = words.into_iter();
        while let Some(word) = rest.next() {
            options.option(&word, &mut rest)?;
        }
        Ok(options)
    }

    fn option(&mut self, option: &str, rest: &mut impl Iterator<Item = String>) -> Result<(), String> {
        let mut value = || rest.next().ok_or(format!("{option} needs a value"));
        match option {
            "--cases" => self.cases = number(option, &value()?)?,
            "--seed" => self.seed = number(option, &value()?)?,
            "--seconds" => self.time = Some(Duration::from_secs(number(option, &value()?)?)),
            "--mounts" => self.mounts = number(option, &value()?)?,
            "--writes" => self.writes(&value()?)?,
            "--planted" => self.planted = Some(planted(&value()?)?),
            "--exhaustive" => self.run = Run::Exhaustive,
            "--kernel" => self.run = Run::Kernel,
            "--case" => self.run = Run::Case(value()?),
            _ => return Err(format!("`{option}` is no option")),
        }
        Ok(())
    }

    fn writes(&mut self, word: &str) -> Result<(), String> {
        match word {
            "on" => self.calls = CALLS.to_vec(),
            "off" => self.calls.retain(|which| !which.writes()),
            _ => return Err(format!("--writes is on or off, not `{word}`")),
        }
        Ok(())
    }
}

fn number(option: &str, word: &str) -> Result<u64, String> {
    word.parse().map_err(|_| format!("{option} needs a number, not `{word}`"))
}

fn planted(word: &str) -> Result<Planted, String> {
    Planted::of(number("--planted", word)?).ok_or(format!("--planted is 1 to {}, not {word}", Planted::ALL.len()))
}

#[cfg(test)]
mod tests {
    use super::*;

    fn read(line: &str) -> Result<Options, String> {
        Options::read(line.split_whitespace().map(String::from))
    }

    #[test]
    fn options_are_read() {
        let options = read("--cases 7 --seed 3 --seconds 2 --planted 6").expect("options");
        assert_eq!((options.cases, options.seed, options.time), (7, 3, Some(Duration::from_secs(2))));
        assert_eq!(options.planted, Some(Planted::LowerInode));
        assert_eq!(read("--kernel --mounts 5").map(|o| (o.run, o.mounts)), Ok((Run::Kernel, 5)));
        assert_eq!(read("--case f").map(|o| o.run), Ok(Run::Case("f".to_string())));
        assert_eq!(read("--seconds 9").map(|o| (o.cases, o.mounts)), Ok((u64::MAX, u64::MAX)), "the time alone ends it");
        assert!(read("--writes off").expect("options").calls.iter().all(|which| !which.writes()));
    }

    #[test]
    fn what_is_wrong_is_told() {
        for (line, words) in [
            ("--cases", "--cases needs a value"),
            ("--cases x", "--cases needs a number, not `x`"),
            ("--planted 9", "--planted is 1 to 8, not 9"),
            ("--planted 0", "--planted is 1 to 8, not 0"),
            ("--writes maybe", "--writes is on or off, not `maybe`"),
            ("--more", "`--more` is no option"),
        ] {
            assert_eq!(read(line), Err(words.to_string()));
        }
    }
}
