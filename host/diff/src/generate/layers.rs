//! Random layers.

use super::NAMES;
use crate::case::Layers;
use crate::draft::{DEPTH, Draft, directory, whiteout};
use crate::random::Random;
use overlay::{Kind, Record, Table};

/// What the layers of a case are made for.
#[derive(Clone, Copy, PartialEq, Eq, Debug)]
pub enum Mode {
    /// A few names in each layer.
    Few,
    /// Chains of directories, up to 16 steps deep.
    Deep,
    /// An upper layer of which 124 to 128 places are used, with whiteouts that share a record.
    Full,
    /// About as many names as there are nodes.
    Many,
    /// Lower directories two to four deep with files in each, under an upper layer that is empty, has some of them, or is almost full.
    Missing,
}

const MODES: [(usize, Mode); 5] = [(62, Mode::Few), (8, Mode::Deep), (10, Mode::Full), (6, Mode::Many), (14, Mode::Missing)];

/// Layers of a mode that is random too.
pub fn random_layers(random: &mut Random) -> (Mode, Layers) {
    let mode = *random.weighted(&MODES);
    (mode, layers_of(random, mode))
}

/// 0 or 1 upper and 0 to 3 lower layers, at least one in all.
pub fn layers_of(random: &mut Random, mode: Mode) -> Layers {
    let has_upper = mode == Mode::Full || random.chance(80);
    let fewest = if mode == Mode::Many { 2 } else { usize::from(!has_upper || mode == Mode::Missing) };
    let lower = random.from_to(fewest, 3);
    let upper = has_upper.then(|| match mode {
        Mode::Full => full(random),
        Mode::Missing => upper_missing(random),
        _ => layer(random, mode, 0, lower + 1),
    });
    let layers = lower + usize::from(has_upper);
    Layers { upper, lower: (1..=lower).map(|k| layer(random, mode, k, layers)).collect() }
}

/// Layer `k` of so many.
fn layer(random: &mut Random, mode: Mode, k: usize, layers: usize) -> Table {
    let mut draft = draft(random);
    match mode {
        Mode::Deep => chain(random, &mut draft),
        Mode::Missing => trunk(random, &mut draft),
        _ => {}
    }
    let items = random.below(if mode == Mode::Missing { 4 } else { 9 });
    scatter(random, &mut draft, items);
    if mode == Mode::Many {
        crowd(random, &mut draft, k, layers);
    }
    draft.table()
}

/// Directories two to four deep, the same in each layer, with something copyable in each.
fn trunk(random: &mut Random, draft: &mut Draft) {
    let mut at = 1;
    for _ in 0..random.from_to(2, 4) {
        let record = directory(random.chance(10));
        let Some(place) = draft.add(at, NAMES[0].as_bytes(), &record) else { return };
        draft.add(place, NAMES[2].as_bytes(), &Record { content: 7, ..Record::new(Kind::Regular, 0o640) });
        if random.chance(30) {
            draft.add(place, NAMES[1].as_bytes(), &Record { content: 9, ..Record::new(Kind::Symlink, 511) });
        }
        at = place;
    }
}

/// Nothing, the trunk's first directory, or hardly a free place.
fn upper_missing(random: &mut Random) -> Table {
    let mut draft = draft(random);
    if random.chance(30) {
        draft.add(1, NAMES[0].as_bytes(), &directory(false));
    }
    if random.chance(50) {
        draft.add(1, b"lone", &whiteout());
        fill(&mut draft, 1, random.below(6), random.below(6));
    }
    draft.table()
}

/// A root, opaque at times, and the places in order or in none.
fn draft(random: &mut Random) -> Draft {
    let root = directory(random.chance(8));
    let (mut records, mut entries): (Vec<usize>, Vec<usize>) = ((2..=128).rev().collect(), (0..128).rev().collect());
    if random.chance(40) {
        random.shuffle(&mut records);
        random.shuffle(&mut entries);
    }
    Draft::with_places(&root, records, entries)
}

/// Adds some items anywhere; one whose name is taken is left out.
fn scatter(random: &mut Random, draft: &mut Draft, items: usize) {
    for _ in 0..items {
        let parent = if random.chance(40) { 1 } else { random.pick(&draft.directories).0 };
        let name = random.pick(&NAMES).as_bytes();
        if random.chance(10) && !draft.others.is_empty() {
            let child = *random.pick(&draft.others);
            draft.share(parent, name, child);
        } else {
            let record = random_record(random);
            draft.add(parent, name, &record);
        }
    }
}

/// Directories below each other, most of one name so that chains of two layers meet.
fn chain(random: &mut Random, draft: &mut Draft) {
    let mut at = 1;
    for _ in 0..random.from_to(2, DEPTH) {
        let name = if random.chance(90) { NAMES[0] } else { NAMES[1] };
        let record = directory(random.chance(6));
        match draft.add(at, name.as_bytes(), &record) {
            Some(place) => at = place,
            None => return,
        }
    }
}

/// Many names of this layer alone, in the root or in one directory: often just as many as there are nodes, all layers together.
fn crowd(random: &mut Random, draft: &mut Draft, k: usize, layers: usize) {
    let parent = if random.chance(70) { 1 } else { draft.add(1, b"crowd", &directory(false)).unwrap_or(1) };
    let names = if random.chance(70) { random.from_to(238, 256) / layers } else { random.from_to(40, 120) };
    for i in 0..names {
        let record = if random.chance(20) { whiteout() } else { Record::new(Kind::Regular, 0o644) };
        draft.add(parent, format!("{k}-{i}").as_bytes(), &record);
    }
}

/// An upper layer of which 124 to 128 record and entry places are used.
fn full(random: &mut Random) -> Table {
    let mut draft = draft(random);
    scatter(random, &mut draft, 8);
    let shared = if random.chance(70) { draft.add(1, b"shared", &whiteout()) } else { None };
    draft.add(1, b"lone", &whiteout());
    let parent = random.pick(&draft.directories).0;
    let (free_records, free_entries) = (random.below(5), random.below(5));
    fill(&mut draft, parent, free_records, free_entries);
    // What is left of the entries is whiteouts that share one record, some over names of the lower layers.
    for name in NAMES.iter().map(|n| n.as_bytes().to_vec()).chain((0..8).map(|i| format!("w{i}").into_bytes())) {
        if let Some(child) = shared.filter(|_| draft.free_entries() > free_entries) {
            draft.share(1, &name, child);
        }
    }
    draft.table()
}

/// Files until only so many places are free.
fn fill(draft: &mut Draft, parent: u8, free_records: usize, free_entries: usize) {
    let mut i = 0;
    while draft.free_records() > free_records && draft.free_entries() > free_entries {
        draft.add(parent, format!("f{i}").as_bytes(), &Record::new(Kind::Regular, 0o644));
        i += 1;
    }
}

const KINDS: [(usize, Kind); 7] = [
    (30, Kind::Regular),
    (32, Kind::Directory),
    (26, Kind::Character),
    (6, Kind::Symlink),
    (2, Kind::Block),
    (2, Kind::Fifo),
    (2, Kind::Socket),
];
const PERMISSIONS: [u16; 6] = [0o644, 0o755, 0o600, 0, 0o7777, 0o1750];
const NUMBERS: [u64; 5] = [0, 1, 512, u64::MAX, 1 << 33];

/// A record of any kind: whiteouts and opaque directories often.
pub fn random_record(random: &mut Random) -> Record {
    let kind = *random.weighted(&KINDS);
    let mut record = Record::new(kind, *random.pick(&PERMISSIONS));
    match kind {
        Kind::Directory => record.opaque = random.chance(30),
        // Most character devices are whiteouts.
        Kind::Character => record.device = if random.chance(88) { 0 } else { random.from_to(1, u32::MAX as usize) as u64 },
        Kind::Block => record.device = random.from_to(0, u32::MAX as usize) as u64,
        Kind::Regular => (record.size, record.content) = (*random.pick(&NUMBERS), *random.pick(&NUMBERS)),
        Kind::Symlink => {
            record.content = *random.pick(&NUMBERS);
            // The domain has copy-ups of symlinks of permissions 511 and size 0 alone.
            if random.chance(80) { record.permissions = 511 } else { record.size = 3 }
        }
        Kind::Fifo | Kind::Socket => {}
    }
    record
}

#[cfg(test)]
mod tests {
    use super::*;
    use overlay::{Errno, Overlay};

    #[test]
    fn every_mode_keeps_the_rules() {
        let mut met = [0; 5];
        for seed in 0..2000 {
            let (mode, layers) = random_layers(&mut Random::new(seed));
            met[mode as usize] += 1;
            let refused = Overlay::import(layers.upper, layers.lower).err();
            assert!(refused.is_none_or(|e| e == Errno::Enfile && mode == Mode::Many), "seed {seed}, {mode:?}: {refused:?}");
        }
        assert!(met.iter().all(|n| *n > 20), "{met:?}");
    }

    #[test]
    fn a_full_upper_layer_has_124_to_128_used_places() {
        let mut shares = 0;
        for seed in 0..200 {
            let table = full(&mut Random::new(seed));
            let (records, entries) = (table.records().count(), table.entries().count());
            // A layer without shared whiteouts has an entry fewer than records, the root having none.
            assert!(records <= 128 && (123..=128).contains(&entries), "seed {seed}: {records} records, {entries} entries");
            shares += usize::from(entries > records);
        }
        assert!(shares > 40, "whiteouts share a record in {shares} of 200");
    }
}
