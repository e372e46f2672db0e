//! The refusal numbers of document 01.

use std::fmt;

/// Why a call was refused. A refusal changes nothing, except that a load done before it stays.
#[repr(u32)]
#[derive(Clone, Copy, PartialEq, Eq, PartialOrd, Ord, Hash, Debug)]
pub enum Errno {
    Eperm = 1,
    Enoent = 2,
    Eexist = 17,
    Enotdir = 20,
    Einval = 22,
    Enfile = 23,
    Enospc = 28,
    Erofs = 30,
    Enametoolong = 36,
}

impl Errno {
    /// Every refusal, by rising number.
    pub const ALL: [Errno; 9] = [
        Errno::Eperm,
        Errno::Enoent,
        Errno::Eexist,
        Errno::Enotdir,
        Errno::Einval,
        Errno::Enfile,
        Errno::Enospc,
        Errno::Erofs,
        Errno::Enametoolong,
    ];

    /// The refusal with this number.
    pub fn of(number: u32) -> Option<Errno> {
        Some(match number {
            1 => Errno::Eperm,
            2 => Errno::Enoent,
            17 => Errno::Eexist,
            20 => Errno::Enotdir,
            22 => Errno::Einval,
            23 => Errno::Enfile,
            28 => Errno::Enospc,
            30 => Errno::Erofs,
            36 => Errno::Enametoolong,
            _ => return None,
        })
    }

    /// Document 01's number.
    pub fn number(self) -> u32 {
        self as u32
    }

    /// Document 01's words for when it is given.
    pub fn words(self) -> &'static str {
        match self {
            Errno::Eperm => "link of a directory, or mknod of a whiteout",
            Errno::Enoent => "node unknown or whiteout, or name absent or whiteout",
            Errno::Eexist => "creation or link on a live name",
            Errno::Enotdir => "parent or listed node is no directory",
            Errno::Einval => "malformed name or argument, or bad layers",
            Errno::Enfile => "node places or numbers don't suffice",
            Errno::Enospc => "upper would hold over 128 records or entries",
            Errno::Erofs => "no upper layer",
            Errno::Enametoolong => "a new name of over 28 bytes",
        }
    }
}

impl fmt::Display for Errno {
    fn fmt(&self, f: &mut fmt::Formatter<'_>) -> fmt::Result {
        write!(f, "errno {}: {}", self.number(), self.words())
    }
}

impl std::error::Error for Errno {}

/// An answer in 32 bits: 0 is success.
pub(crate) fn done(errno: u32) -> Result<(), Errno> {
    if errno == 0 { Ok(()) } else { Err(Errno::of(errno).unwrap_or_else(|| impossible(errno))) }
}

#[cold]
fn impossible(errno: u32) -> ! {
    panic!("the library answered errno {errno}, which is proved impossible: link the archive that tools/native makes")
}

/// An answer in 64 bits: the errno above, the value below.
pub(crate) fn value(answer: u64) -> Result<u32, Errno> {
    done((answer >> 32) as u32).map(|()| answer as u32)
}

#[cfg(test)]
mod tests {
    use super::*;

    #[test]
    fn answers_are_taken_apart() {
        assert_eq!(done(0), Ok(()));
        assert_eq!(value(7), Ok(7));
        assert_eq!(value(23 << 32), Err(Errno::Enfile));
        assert_eq!(Errno::ALL.map(|e| done(e.number())), Errno::ALL.map(Err));
    }

    #[test]
    #[should_panic(expected = "errno 5, which is proved impossible")]
    fn another_errno_is_told() {
        let _ = done(5);
    }
}
