//! Upper records matched by walking both trees by name: a bijection with equal fields, so that hard links count too.

use super::{Divergence, What};
use overlay::{Kind, Table};
use std::collections::BTreeMap;

/// Which record of the other upper table stands for a record of ours; 0 where none does.
#[derive(Clone, PartialEq, Eq, Debug)]
pub struct Pairing([u8; 256]);

impl Pairing {
    /// What stands on the other side for a layer's record: only the upper layer's records are renamed.
    pub fn of(&self, (layer, record): (u8, u8)) -> (u8, u8) {
        if layer == 0 { (0, self.0[usize::from(record)]) } else { (layer, record) }
    }

    /// Every record stands for itself.
    pub fn same() -> Pairing {
        Pairing(std::array::from_fn(|i| i as u8))
    }
}

struct Walk<'a> {
    ours: &'a Table,
    rust: &'a Table,
    to: Pairing,
    back: [u8; 256],
    next: Vec<(u8, u8)>,
}

/// The bijection between the records of two upper tables; refused where the trees differ in a name, a link or a field.
pub fn pair_tables(ours: Option<&Table>, rust: Option<&Table>) -> Result<Pairing, Divergence> {
    let (ours, rust) = match (ours, rust) {
        (Some(ours), Some(rust)) => (ours, rust),
        (None, None) => return Ok(Pairing::same()),
        _ => return Err(differ("one side has an upper layer and the other has none".to_string())),
    };
    if ours == rust {
        return Ok(Pairing::same());
    }
    let mut walk = Walk { ours, rust, to: Pairing([0; 256]), back: [0; 256], next: Vec::new() };
    walk.meet(1, 1, b"")?;
    while let Some((a, b)) = walk.next.pop() {
        walk.children(a, b)?;
    }
    let unreached = |t: &Table, met: &[u8; 256]| t.records().find(|(place, _)| met[*place] == 0);
    match (unreached(ours, &walk.to.0), unreached(rust, &walk.back)) {
        (None, None) => Ok(walk.to),
        (Some((place, _)), _) => Err(differ(format!("our upper record {place} is reached by no name"))),
        (_, Some((place, _))) => Err(differ(format!("the other side's upper record {place} is reached by no name"))),
    }
}

impl Walk<'_> {
    /// Two records that bear one name: fields equal, and neither already paired with another.
    fn meet(&mut self, a: u8, b: u8, name: &[u8]) -> Result<(), Divergence> {
        let (paired, back) = (self.to.0[usize::from(a)], self.back[usize::from(b)]);
        if (paired, back) == (b, a) {
            return Ok(());
        }
        let said = overlay::text::name(name);
        if paired != 0 || back != 0 {
            return Err(differ(format!("upper `{said}`: records {a} here and {b} there, but a link makes them others")));
        }
        let (ours, rust) = (self.ours.record(a.into()), self.rust.record(b.into()));
        if ours != rust || ours.is_none() {
            return Err(differ(format!("upper `{said}`: record {a} here is {ours:?}, record {b} there {rust:?}")));
        }
        self.to.0[usize::from(a)] = b;
        self.back[usize::from(b)] = a;
        if ours.is_some_and(|r| r.kind == Kind::Directory) {
            self.next.push((a, b));
        }
        Ok(())
    }

    fn children(&mut self, a: u8, b: u8) -> Result<(), Divergence> {
        let (ours, rust) = (names(self.ours, a), names(self.rust, b));
        if ours.keys().ne(rust.keys()) {
            let list = |m: &BTreeMap<Vec<u8>, u8>| m.keys().map(|n| overlay::text::name(n)).collect::<Vec<_>>().join(" ");
            return Err(differ(format!("upper directory {a} here has [{}], {b} there [{}]", list(&ours), list(&rust))));
        }
        ours.iter().zip(rust.values()).try_for_each(|((name, a), b)| self.meet(*a, *b, name))
    }
}

fn names(t: &Table, parent: u8) -> BTreeMap<Vec<u8>, u8> {
    t.entries().filter(|(_, e)| e.parent == parent).map(|(_, e)| (e.name, e.child)).collect()
}

fn differ(words: String) -> Divergence {
    Divergence::new(What::Upper, words)
}

#[cfg(test)]
mod tests {
    use super::*;

    const LINKED: &str = "record 1 directory 0755\nrecord 2 regular 0644 size 5\nentry 0 1 2 a\nentry 1 1 2 b\n";

    fn table(lines: &str) -> Table {
        overlay::text::table(lines).expect("a table's lines")
    }

    fn pair(a: &str, b: &str) -> Result<Pairing, Divergence> {
        pair_tables(Some(&table(a)), Some(&table(b)))
    }

    #[test]
    fn renamed_records_pair() {
        let renamed = LINKED.replace("record 2", "record 9").replace("1 2", "1 9");
        let pairing = pair(LINKED, &renamed).expect("the same tree");
        assert_eq!(pairing.of((0, 2)), (0, 9));
        assert_eq!(pairing.of((1, 2)), (1, 2), "a lower record is not renamed");
    }

    #[test]
    fn a_link_is_no_copy() {
        let copied = "record 1 directory 0755\nrecord 2 regular 0644 size 5\nrecord 3 regular 0644 size 5\nentry 0 1 2 a\nentry 1 1 3 b\n";
        for (a, b) in [(LINKED, copied), (copied, LINKED)] {
            assert!(pair(a, b).unwrap_err().words.contains("a link makes them others"));
        }
    }

    #[test]
    fn a_field_a_name_and_a_stray_record_differ() {
        assert!(pair(LINKED, &LINKED.replace("size 5", "size 6")).unwrap_err().words.contains("record 2"));
        assert!(pair(LINKED, &LINKED.replace("2 b", "2 c")).unwrap_err().words.contains("has [a b]"));
        let stray = format!("{LINKED}record 3 fifo 0\n");
        assert!(pair(LINKED, &stray).unwrap_err().words.contains("reached by no name"));
        assert!(pair(&stray, LINKED).unwrap_err().words.contains("reached by no name"));
        assert!(pair_tables(Some(&table(LINKED)), None).is_err());
    }
}
