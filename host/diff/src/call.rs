//! The calls of docs/ABI.md. `N` says how a node is named: by a [`Target`] in a case, by a side's own number when it is called.

use std::fmt;

/// A name's bytes.
pub type Name = Vec<u8>;

/// A call with its arguments, those of the C functions.
#[derive(Clone, PartialEq, Eq, Debug)]
pub enum Call<N> {
    Import,
    Lookup { parent: N, name: Name },
    Count { node: N },
    List { node: N, offset: u64, size: u64, buffer: usize },
    Forget { node: N, amount: u64 },
    Node { node: N },
    Mknod { parent: N, name: Name, kind: u32, permissions: u32, umask: u32, device: u64 },
    Create { parent: N, name: Name, permissions: u32, umask: u32 },
    Symlink { parent: N, name: Name, content: u64 },
    Link { source: N, parent: N, name: Name },
    CopyUp { node: N },
}

/// Which call it is.
#[derive(Clone, Copy, PartialEq, Eq, PartialOrd, Ord, Hash, Debug)]
pub enum Which {
    Import,
    Lookup,
    Count,
    List,
    Forget,
    Node,
    Mknod,
    Create,
    Symlink,
    Link,
    CopyUp,
}

/// The calls of a run where none are left out.
pub const CALLS: &[Which] = &Which::ALL;

impl Which {
    /// Every call of docs/ABI.md.
    pub const ALL: [Which; 11] = [
        Which::Import,
        Which::Lookup,
        Which::Count,
        Which::List,
        Which::Forget,
        Which::Node,
        Which::Mknod,
        Which::Create,
        Which::Symlink,
        Which::Link,
        Which::CopyUp,
    ];

    /// Whether it may change the upper layer.
    pub fn writes(self) -> bool {
        matches!(self, Which::Mknod | Which::Create | Which::Symlink | Which::Link | Which::CopyUp)
    }

    /// The word that starts its line in a replay text.
    pub fn word(self) -> &'static str {
        match self {
            Which::Import => "import",
            Which::Lookup => "lookup",
            Which::Count => "count",
            Which::List => "list",
            Which::Forget => "forget",
            Which::Node => "node",
            Which::Mknod => "mknod",
            Which::Create => "create",
            Which::Symlink => "symlink",
            Which::Link => "link",
            Which::CopyUp => "copy_up",
        }
    }
}

impl fmt::Display for Which {
    fn fmt(&self, f: &mut fmt::Formatter<'_>) -> fmt::Result {
        f.write_str(self.word())
    }
}

/// How a case names a node: by its path, which survives shrinking, or by a number of our side, known or not.
#[derive(Clone, PartialEq, Eq, Debug)]
pub enum Target {
    Path(Vec<Name>),
    Number(u64),
}

/// A path as `/d/f`, in the letters of a replay text.
impl fmt::Display for Target {
    fn fmt(&self, f: &mut fmt::Formatter<'_>) -> fmt::Result {
        match self {
            Target::Number(number) => number.fmt(f),
            Target::Path(path) if path.is_empty() => f.write_str("/"),
            Target::Path(path) => path.iter().try_for_each(|name| write!(f, "/{}", overlay::text::name(name))),
        }
    }
}

impl<N> Call<N> {
    pub fn which(&self) -> Which {
        match self {
            Call::Import => Which::Import,
            Call::Lookup { .. } => Which::Lookup,
            Call::Count { .. } => Which::Count,
            Call::List { .. } => Which::List,
            Call::Forget { .. } => Which::Forget,
            Call::Node { .. } => Which::Node,
            Call::Mknod { .. } => Which::Mknod,
            Call::Create { .. } => Which::Create,
            Call::Symlink { .. } => Which::Symlink,
            Call::Link { .. } => Which::Link,
            Call::CopyUp { .. } => Which::CopyUp,
        }
    }

    /// The node that the call is about: the parent where it has a name, none in import.
    pub fn about(&self) -> Option<&N> {
        match self {
            Call::Import => None,
            Call::Lookup { parent, .. }
            | Call::Mknod { parent, .. }
            | Call::Create { parent, .. }
            | Call::Symlink { parent, .. }
            | Call::Link { parent, .. } => Some(parent),
            Call::Count { node } | Call::List { node, .. } | Call::Forget { node, .. } | Call::Node { node } | Call::CopyUp { node } => {
                Some(node)
            }
        }
    }

    /// The name that it looks up or makes.
    pub fn name(&self) -> Option<&[u8]> {
        match self {
            Call::Lookup { name, .. }
            | Call::Mknod { name, .. }
            | Call::Create { name, .. }
            | Call::Symlink { name, .. }
            | Call::Link { name, .. } => Some(name),
            _ => None,
        }
    }

    /// The same call with its nodes named otherwise; none where one of them has no such name.
    pub fn renamed<M>(&self, mut f: impl FnMut(&N) -> Option<M>) -> Option<Call<M>> {
        Some(match self {
            Call::Import => Call::Import,
            Call::Lookup { parent, name } => Call::Lookup { parent: f(parent)?, name: name.clone() },
            Call::Count { node } => Call::Count { node: f(node)? },
            Call::List { node, offset, size, buffer } => Call::List { node: f(node)?, offset: *offset, size: *size, buffer: *buffer },
            Call::Forget { node, amount } => Call::Forget { node: f(node)?, amount: *amount },
            Call::Node { node } => Call::Node { node: f(node)? },
            Call::Mknod { parent, name, kind, permissions, umask, device } => Call::Mknod {
                parent: f(parent)?,
                name: name.clone(),
                kind: *kind,
                permissions: *permissions,
                umask: *umask,
                device: *device,
            },
            Call::Create { parent, name, permissions, umask } => {
                Call::Create { parent: f(parent)?, name: name.clone(), permissions: *permissions, umask: *umask }
            }
            Call::Symlink { parent, name, content } => Call::Symlink { parent: f(parent)?, name: name.clone(), content: *content },
            Call::Link { source, parent, name } => Call::Link { source: f(source)?, parent: f(parent)?, name: name.clone() },
            Call::CopyUp { node } => Call::CopyUp { node: f(node)? },
        })
    }
}
