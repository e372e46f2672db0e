//! Differential runs: the proved library against the Rust text (`oracle`), call by call, and against the kernel's own overlayfs.

pub mod call;
pub mod case;
pub mod cases;
pub mod compare;
pub mod draft;
pub mod exhaustive;
pub mod generate;
pub mod kernel;
pub mod listed;
pub mod need;
pub mod options;
pub mod ours;
pub mod planted;
pub mod random;
pub mod reach;
pub mod run;
pub mod rust;
pub mod shrink;
pub mod side;
pub mod tally;
pub mod text;
