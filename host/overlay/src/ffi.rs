//! The C functions of include/overlay.h, and over each a safe function on slices: the only unsafe code of this crate.
//!
//! Why it is sound: a function of the library answers for any lengths and any bytes, writes nothing outside the slices that it is lent,
//! keeps no pointer and asks for no alignment, all proved; that the slices of one call do not overlap is what `&mut` says.

mod c {
    unsafe extern "C" {
        pub fn overlay_import(
            state: *mut u8,
            state_len: usize,
            upper: *const u8,
            upper_len: usize,
            lower: *const u8,
            lower_len: usize,
        ) -> u32;
        pub fn overlay_lookup(
            state: *mut u8,
            state_len: usize,
            upper: *const u8,
            upper_len: usize,
            lower: *const u8,
            lower_len: usize,
            parent: u64,
            name: *const u8,
            name_len: usize,
        ) -> u64;
        pub fn overlay_count(
            state: *mut u8,
            state_len: usize,
            upper: *const u8,
            upper_len: usize,
            lower: *const u8,
            lower_len: usize,
            node: u64,
        ) -> u64;
        pub fn overlay_list(
            state: *mut u8,
            state_len: usize,
            upper: *const u8,
            upper_len: usize,
            lower: *const u8,
            lower_len: usize,
            node: u64,
            offset: u64,
            size: u64,
            buffer: *mut u8,
            buffer_len: usize,
        ) -> u64;
        pub fn overlay_forget(state: *mut u8, state_len: usize, node: u64, amount: u64);
        pub fn overlay_node(state: *const u8, state_len: usize, node: u64, out: *mut u8, out_len: usize) -> u32;
        pub fn overlay_mknod(
            state: *mut u8,
            state_len: usize,
            upper: *mut u8,
            upper_len: usize,
            lower: *const u8,
            lower_len: usize,
            parent: u64,
            name: *const u8,
            name_len: usize,
            kind: u32,
            permissions: u32,
            umask: u32,
            device: u64,
        ) -> u64;
        pub fn overlay_create(
            state: *mut u8,
            state_len: usize,
            upper: *mut u8,
            upper_len: usize,
            lower: *const u8,
            lower_len: usize,
            parent: u64,
            name: *const u8,
            name_len: usize,
            permissions: u32,
            umask: u32,
        ) -> u64;
        pub fn overlay_symlink(
            state: *mut u8,
            state_len: usize,
            upper: *mut u8,
            upper_len: usize,
            lower: *const u8,
            lower_len: usize,
            parent: u64,
            name: *const u8,
            name_len: usize,
            content: u64,
        ) -> u64;
        pub fn overlay_link(
            state: *mut u8,
            state_len: usize,
            upper: *mut u8,
            upper_len: usize,
            lower: *const u8,
            lower_len: usize,
            source: u64,
            parent: u64,
            name: *const u8,
            name_len: usize,
        ) -> u64;
        pub fn overlay_copy_up(
            state: *mut u8,
            state_len: usize,
            upper: *mut u8,
            upper_len: usize,
            lower: *const u8,
            lower_len: usize,
            node: u64,
        ) -> u32;
    }
}

/// The layers of a call that only reads them.
#[derive(Clone, Copy)]
pub(crate) struct Layers<'a> {
    pub(crate) upper: &'a [u8],
    pub(crate) lower: &'a [u8],
}

/// The state and the layers of a call that writes the upper one.
pub(crate) struct Writable<'a> {
    pub(crate) state: &'a mut [u8],
    pub(crate) upper: &'a mut [u8],
    pub(crate) lower: &'a [u8],
}

impl Writable<'_> {
    /// Each slice as a pointer and a length: state, upper, lower.
    fn parts(&mut self) -> (*mut u8, usize, *mut u8, usize, *const u8, usize) {
        let (s, n) = (self.state.as_mut_ptr(), self.state.len());
        let (u, m) = (self.upper.as_mut_ptr(), self.upper.len());
        (s, n, u, m, self.lower.as_ptr(), self.lower.len())
    }
}

/// What a mknod makes.
#[derive(Clone, Copy)]
pub(crate) struct Special {
    pub(crate) kind: u32,
    pub(crate) permissions: u32,
    pub(crate) umask: u32,
    pub(crate) device: u64,
}

/// `overlay_import`: the errno.
pub(crate) fn import(state: &mut [u8], layers: Layers) -> u32 {
    let Layers { upper, lower } = layers;
    // SAFETY: see the head of this file.
    unsafe { c::overlay_import(state.as_mut_ptr(), state.len(), upper.as_ptr(), upper.len(), lower.as_ptr(), lower.len()) }
}

/// `overlay_lookup`: errno and node.
pub(crate) fn lookup(state: &mut [u8], layers: Layers, parent: u64, name: &[u8]) -> u64 {
    let Layers { upper, lower } = layers;
    let (s, n) = (state.as_mut_ptr(), state.len());
    // SAFETY: see the head of this file.
    unsafe { c::overlay_lookup(s, n, upper.as_ptr(), upper.len(), lower.as_ptr(), lower.len(), parent, name.as_ptr(), name.len()) }
}

/// `overlay_count`: errno, and live + 65536 * whiteouts.
pub(crate) fn count(state: &mut [u8], layers: Layers, node: u64) -> u64 {
    let Layers { upper, lower } = layers;
    // SAFETY: see the head of this file.
    unsafe { c::overlay_count(state.as_mut_ptr(), state.len(), upper.as_ptr(), upper.len(), lower.as_ptr(), lower.len(), node) }
}

/// `overlay_list`: errno, and bytes + 2147483648 where entries remain.
pub(crate) fn list(state: &mut [u8], layers: Layers, node: u64, offset: u64, size: u64, buffer: &mut [u8]) -> u64 {
    let Layers { upper, lower } = layers;
    let (s, n) = (state.as_mut_ptr(), state.len());
    let (b, length) = (buffer.as_mut_ptr(), buffer.len());
    // SAFETY: see the head of this file.
    unsafe { c::overlay_list(s, n, upper.as_ptr(), upper.len(), lower.as_ptr(), lower.len(), node, offset, size, b, length) }
}

/// `overlay_forget`.
pub(crate) fn forget(state: &mut [u8], node: u64, amount: u64) {
    // SAFETY: see the head of this file.
    unsafe { c::overlay_forget(state.as_mut_ptr(), state.len(), node, amount) }
}

/// `overlay_node`: the errno.
pub(crate) fn node(state: &[u8], node: u64, out: &mut [u8]) -> u32 {
    // SAFETY: see the head of this file.
    unsafe { c::overlay_node(state.as_ptr(), state.len(), node, out.as_mut_ptr(), out.len()) }
}

/// `overlay_mknod`: errno and node.
pub(crate) fn mknod(w: &mut Writable, parent: u64, name: &[u8], made: Special) -> u64 {
    let (s, n, u, m, l, k) = w.parts();
    let Special { kind, permissions, umask, device } = made;
    // SAFETY: see the head of this file.
    unsafe { c::overlay_mknod(s, n, u, m, l, k, parent, name.as_ptr(), name.len(), kind, permissions, umask, device) }
}

/// `overlay_create`: errno and node.
pub(crate) fn create(w: &mut Writable, parent: u64, name: &[u8], permissions: u32, umask: u32) -> u64 {
    let (s, n, u, m, l, k) = w.parts();
    // SAFETY: see the head of this file.
    unsafe { c::overlay_create(s, n, u, m, l, k, parent, name.as_ptr(), name.len(), permissions, umask) }
}

/// `overlay_symlink`: errno and node.
pub(crate) fn symlink(w: &mut Writable, parent: u64, name: &[u8], content: u64) -> u64 {
    let (s, n, u, m, l, k) = w.parts();
    // SAFETY: see the head of this file.
    unsafe { c::overlay_symlink(s, n, u, m, l, k, parent, name.as_ptr(), name.len(), content) }
}

/// `overlay_link`: errno and node.
pub(crate) fn link(w: &mut Writable, source: u64, parent: u64, name: &[u8]) -> u64 {
    let (s, n, u, m, l, k) = w.parts();
    // SAFETY: see the head of this file.
    unsafe { c::overlay_link(s, n, u, m, l, k, source, parent, name.as_ptr(), name.len()) }
}

/// `overlay_copy_up`: the errno.
pub(crate) fn copy_up(w: &mut Writable, node: u64) -> u32 {
    let (s, n, u, m, l, k) = w.parts();
    // SAFETY: see the head of this file.
    unsafe { c::overlay_copy_up(s, n, u, m, l, k, node) }
}

/// What the safe face cannot ask, since it always lends the right lengths.
#[cfg(test)]
mod tests {
    use super::*;
    use crate::{STATE, text};

    const EINVAL: u64 = 22 << 32;

    fn imported() -> ([u8; STATE], Vec<u8>) {
        let table = text::table("record 1 directory 0755\nrecord 2 regular 0644\nentry 0 1 2 k").expect("three good lines");
        let (mut state, upper) = ([7; STATE], table.bytes().to_vec());
        assert_eq!(import(&mut state, Layers { upper: &upper, lower: &[] }), 0);
        (state, upper)
    }

    #[test]
    fn other_lengths_are_22_and_write_nothing() {
        let (mut state, upper) = imported();
        let before = state;
        let (short, long) = (Layers { upper: &upper[1..], lower: &[] }, Layers { upper: &upper, lower: &[0] });
        for layers in [short, long] {
            assert_eq!(lookup(&mut state, layers, 1, b"k"), EINVAL);
            assert_eq!(count(&mut state, layers, 1), EINVAL);
            assert_eq!(list(&mut state, layers, 1, 0, 96, &mut [0; 96]), EINVAL);
        }
        let good = Layers { upper: &upper, lower: &[] };
        assert_eq!(lookup(&mut state[1..], good, 1, b"k"), EINVAL);
        forget(&mut state[1..], 2, 1);
        assert_eq!(state, before);
        assert_eq!(import(&mut state, short), 22);
        assert_eq!(state, [0; STATE]);
    }

    /// Every call that writes, with arguments that the imported state takes.
    fn write_all(state: &mut [u8], upper: &mut [u8], lower: &[u8]) -> [u64; 5] {
        let w = &mut Writable { state, upper, lower };
        let fifo = Special { kind: 1, permissions: 0, umask: 0, device: 0 };
        [mknod(w, 1, b"a", fifo), create(w, 1, b"b", 0, 0), symlink(w, 1, b"c", 0), link(w, 2, 1, b"d"), copy_up(w, 2).into()]
    }

    #[test]
    fn other_lengths_are_22_and_no_call_writes() {
        let (mut state, mut upper) = imported();
        let before = (state, upper.clone());
        let refused = [EINVAL, EINVAL, EINVAL, EINVAL, 22];
        assert_eq!(write_all(&mut state[1..], &mut upper, &[]), refused);
        assert_eq!(write_all(&mut state, &mut upper[1..], &[]), refused);
        assert_eq!(write_all(&mut state, &mut upper, &[0]), refused);
        assert_eq!(write_all(&mut state, &mut upper, &[0; 4 * 8192]), refused);
        assert_eq!((state, &upper), (before.0, &before.1));
        assert_eq!(write_all(&mut state, &mut upper, &[]), [3, 4, 5, 6, 0]);
    }

    /// A whiteout's name has a node already, so it needs no number.
    #[test]
    fn no_number_is_left_for_a_new_name() {
        let lines = "record 1 directory 0755\nrecord 2 regular 0644\nrecord 3 character 0\nentry 0 1 2 k\nentry 1 1 3 w";
        let (mut state, mut upper) = ([0; STATE], text::table(lines).expect("five good lines").bytes().to_vec());
        assert_eq!(import(&mut state, Layers { upper: &upper, lower: &[] }), 0);
        state[..8].copy_from_slice(&(1u64 << 32).to_le_bytes());
        let before = (state, upper.clone());
        let enfile = 23 << 32;
        assert_eq!(write_all(&mut state, &mut upper, &[]), [enfile, enfile, enfile, enfile, 0]);
        assert_eq!((state, &upper), (before.0, &before.1));
        let w = &mut Writable { state: &mut state, upper: &mut upper, lower: &[] };
        assert_eq!(create(w, 1, b"w", 0o644, 0), 3);
        assert_eq!(state[..8], before.0[..8]);
        state[..8].copy_from_slice(&(u64::from(u32::MAX)).to_le_bytes());
        let w = &mut Writable { state: &mut state, upper: &mut upper, lower: &[] };
        assert_eq!(create(w, 1, b"n", 0o644, 0), u32::MAX.into());
        assert_eq!(create(w, 1, b"m", 0o644, 0), enfile);
    }

    #[test]
    fn node_refuses_2_then_22() {
        let (state, _) = imported();
        let mut out = [9; 60];
        assert_eq!(node(&state, 99, &mut out[..51]), 2);
        assert_eq!(node(&state, 2, &mut out[..51]), 22);
        assert_eq!(out, [9; 60]);
        assert_eq!(node(&state, 2, &mut out), 0);
        assert_eq!(out[52..], [9; 8]);
        assert_eq!(out[..4], [2, 0, 0, 0]);
    }
}
