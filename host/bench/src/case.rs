//! The joins that are measured: regular files under the root, or directories.

use crate::clock::COPIES;
use overlay::{Entry, Kind, Overlay, Record, Table};

/// Names that no case has: one of another length than all, and one that is told from them only at its sixth byte.
pub const ABSENT: &[u8] = b"styleless";
pub const NEAR: &[u8] = b"stylexyz";

/// So many names in the root, in these layers, the topmost first; it is the upper one.
pub struct Case {
    pub names: Vec<Vec<u8>>,
    pub layers: Vec<Table>,
    /// What a reader calls the layers.
    pub form: String,
}

/// A layer with a record of this kind under each name in its root.
fn layer<'a>(kind: Kind, names: impl Iterator<Item = &'a Vec<u8>>) -> Table {
    let mut t = Table::empty();
    t.put_record(1, &Record::new(Kind::Directory, 0o755));
    for (i, name) in names.enumerate() {
        t.put_record(i + 2, &Record { size: 512, content: i as u64, ..Record::new(kind, 0o644) });
        t.put_entry(i, &Entry { parent: 1, child: i as u8 + 2, name: name.clone() });
    }
    t
}

/// `style000` and on: names that differ only after five bytes, as a folder of styles has them.
fn names(count: usize) -> Vec<Vec<u8>> {
    (0..count).map(style).collect()
}

fn style(i: usize) -> Vec<u8> {
    format!("style{i:03}").into_bytes()
}

/// Layers that have each name in one of them, by turns.
fn by_turns(kind: Kind, names: &[Vec<u8>], layers: usize) -> Vec<Table> {
    (0..layers).map(|k| layer(kind, names.iter().skip(k).step_by(layers))).collect()
}

impl Case {
    /// Each name in one of the layers, by turns.
    pub fn spread(count: usize, layers: usize) -> Case {
        let (names, form) = (names(count), layers.to_string());
        let layers = by_turns(Kind::Regular, &names, layers);
        Case { names, layers, form }
    }

    /// Every second name, each in one of the layers, by turns; a new one fits behind each.
    pub fn spaced(count: usize, layers: usize) -> Case {
        let (names, form) = ((0..count).map(|i| style(2 * i)).collect::<Vec<_>>(), layers.to_string());
        let layers = by_turns(Kind::Regular, &names, layers);
        Case { names, layers, form }
    }

    /// Each name in one of the lower layers, by turns; the upper one has its root alone.
    pub fn below(count: usize, lower: usize, kind: Kind) -> Case {
        let (names, form) = (names(count), format!("{}, all below", 1 + lower));
        let mut layers = vec![layer(kind, [].iter())];
        layers.extend(by_turns(kind, &names, lower));
        Case { names, layers, form }
    }

    /// Each name in every layer.
    pub fn stacked(count: usize, layers: usize) -> Case {
        let (names, form) = (names(count), format!("{layers}, all in each"));
        let layers = vec![layer(Kind::Regular, names.iter()); layers];
        Case { names, layers, form }
    }

    /// The names that a spaced case has not, one behind each that it has.
    pub fn new_names(&self) -> Vec<Vec<u8>> {
        (0..self.names.len()).map(|i| style(2 * i + 1)).collect()
    }

    /// The names of the upper layer.
    pub fn upper_names(&self) -> Vec<Vec<u8>> {
        self.layers[0].entries().map(|(_, e)| e.name).collect()
    }

    /// The join here; its root is loaded.
    pub fn ours(&self) -> Overlay {
        Overlay::import(Some(self.layers[0].clone()), self.layers[1..].to_vec()).expect("good layers whose names fit")
    }

    /// The upper table's bytes, and the lower ones'.
    pub fn bytes(&self) -> (&[u8], Vec<&[u8]>) {
        (self.layers[0].bytes(), self.layers[1..].iter().map(Table::bytes).collect())
    }
}

/// What the `i`-th copy of a round is called with: the items are spread over all copies.
pub fn pick<T>(items: &[T], i: usize) -> &T {
    &items[i * items.len() / COPIES]
}

/// Places from 0 to below `length`, over and over.
pub struct Turn {
    length: usize,
    at: usize,
}

impl Turn {
    pub fn new(length: usize) -> Turn {
        Turn { length, at: 0 }
    }

    pub fn next(&mut self) -> usize {
        let at = self.at;
        self.at = if at + 1 == self.length { 0 } else { at + 1 };
        at
    }
}
