//! The macros that the given Rust text takes of the crate `log`: their words are tested by the compiler and never printed.

/// The one macro behind the others.
#[macro_export]
macro_rules! silent {
    ($($words:tt)*) => {
        if false {
            let _ = format_args!($($words)*);
        }
    };
}

pub use {silent as debug, silent as error, silent as info, silent as trace};
