//! Document 01's whole listing case, and what does not fit in 256 nodes.

mod common;

use common::joins::crowded;
use overlay::{Count, Errno, Overlay, Page, ROOT, dirents, text};

#[test]
fn the_whole_listing_case() {
    let upper = text::table("record 1 directory 0755\nrecord 2 regular 0644\nentry 0 1 2 k").expect("good lines");
    let mut o = Overlay::import(Some(upper), vec![]).expect("a good layer");
    let entries = ["inode 1 offset 1 type 4 name .", "inode 1 offset 2 type 4 name ..", "inode 2 offset 3 type 8 name k"];
    for (size, whole) in [(31, 0), (32, 1), (63, 1), (64, 2), (96, 3)] {
        let mut buffer = [0xaa; 128];
        assert_eq!(o.list(ROOT, 0, size, &mut buffer), Ok(Page { bytes: 32 * whole, remains: whole < 3 }), "size {size}");
        let listed: Vec<String> = dirents(&buffer[..32 * whole]).iter().map(|d| d.to_string()).collect();
        assert_eq!(listed, entries[..whole], "size {size}");
        assert!(buffer[32 * whole..].iter().all(|b| *b == 0xaa), "size {size} wrote behind its page");
    }
    let mut bytes = [0; 96];
    o.list(ROOT, 0, 96, &mut bytes).expect("a listing");
    assert_eq!(bytes[64..], [2, 0, 0, 0, 0, 0, 0, 0, 3, 0, 0, 0, 0, 0, 0, 0, 1, 0, 0, 0, 8, 0, 0, 0, b'k', 0, 0, 0, 0, 0, 0, 0]);
}

#[test]
fn pages_follow_one_another() {
    let mut o = Overlay::import(None, vec![crowded("n", 40, 0)]).expect("a good layer");
    let (mut names, mut offset, mut buffer) = (Vec::new(), 0, [0; 100]);
    loop {
        let page = o.list(ROOT, offset, 100, &mut buffer).expect("a page");
        let entries = dirents(&buffer[..page.bytes]);
        offset = entries.last().map_or(offset, |d| d.offset);
        names.extend(entries.into_iter().map(|d| d.name));
        if !page.remains {
            break;
        }
    }
    assert_eq!(names.len(), 43);
    assert!(names.is_sorted());
    assert_eq!(names, o.listing(ROOT).expect("a listing").into_iter().map(|d| d.name).collect::<Vec<_>>());
}

#[test]
fn an_import_of_more_than_255_names_is_23() {
    let full = vec![crowded("a", 127, 0), crowded("b", 127, 0)];
    let o = Overlay::import(None, full.clone()).expect("254 files, d and the root");
    assert_eq!(o.nodes().len(), 256);
    assert_eq!(Overlay::import(Some(crowded("c", 1, 0)), full).err(), Some(Errno::Enfile));
}

fn number_of(o: &Overlay, name: &[u8]) -> u64 {
    o.nodes().iter().find(|n| n.name == name).expect("a name of the root").number.into()
}

#[test]
fn a_load_that_just_fits() {
    let mut o = Overlay::import(Some(crowded("a", 127, 0)), vec![crowded("b", 100, 27)]).expect("227 files, d and the root");
    let d = number_of(&o, b"d");
    assert_eq!(o.lookup(d, b"b100"), Ok(230));
    assert_eq!(o.count(d), Ok(Count { live: 27, whiteouts: 0 }));
    assert_eq!(o.nodes().len(), 256);
}

#[test]
fn a_load_that_does_not_fit_is_23_and_adds_none() {
    let lower = vec![crowded("b", 100, 27), crowded("c", 0, 1)];
    let mut o = Overlay::import(Some(crowded("a", 127, 0)), lower).expect("227 files, d and the root");
    let (d, before, mut buffer) = (number_of(&o, b"d"), o.state().to_vec(), [5; 96]);
    assert_eq!(o.lookup(d, b"b100"), Err(Errno::Enfile));
    assert_eq!(o.count(d), Err(Errno::Enfile));
    assert_eq!(o.list(d, 0, 96, &mut buffer), Err(Errno::Enfile));
    assert_eq!((buffer, o.state()), ([5; 96], &before[..]));
}
