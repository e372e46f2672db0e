//! Cases as the lines that `replay` reads (docs/REPLAY.md): layers, tables, import, calls with our numbers.

mod read;
mod write;

pub use read::read_case;
pub use write::{call_line, layers_lines, told};
