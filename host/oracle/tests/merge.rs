//! The marked cases M1 to M8 of document 01: one name in layers from the top, through an import and through `new_from_real_inodes` alone.

mod common;

use common::*;

const FILE: &str = "record 2 regular 0644\nentry 0 1 2 x";
const WHITEOUT: &str = "record 2 character 0\nentry 0 1 2 x";
const DIR: &str = "record 2 directory 0755\nentry 0 1 2 x";
const OPAQUE: &str = "record 2 directory 0755 opaque 1\nentry 0 1 2 x";

/// The first layer is the upper one.
fn merged(layers: &[&str], length: usize, whiteout: bool) {
    let Some(o) = oracle(Some(layers[0]), &layers[1..]) else { return };
    let stack: Vec<(u8, u8)> = (0..length as u8).map(|layer| (layer, 2)).collect();
    assert_eq!(o.merge(b"x"), Ok((stack.clone(), whiteout)));
    let x = view(&o, &["x"]);
    assert_eq!((x.stack, x.whiteout), (stack, whiteout));
}

#[test]
fn m1_file_file() {
    merged(&[FILE, FILE], 1, false);
}

#[test]
fn m2_whiteout_file() {
    merged(&[WHITEOUT, FILE], 1, true);
}

#[test]
fn m3_dir_whiteout_dir() {
    merged(&[DIR, WHITEOUT, DIR], 1, false);
}

#[test]
fn m4_dir_file_dir() {
    merged(&[DIR, FILE, DIR], 1, false);
}

#[test]
fn m5_dir_opaque_dir() {
    merged(&[DIR, OPAQUE, DIR], 2, false);
}

#[test]
fn m6_opaque_dir() {
    merged(&[OPAQUE, DIR], 1, false);
}

#[test]
fn m7_dir_dir_dir() {
    merged(&[DIR, DIR, DIR], 3, false);
}

#[test]
fn m8_nothing() {
    let Some(o) = oracle(Some(EMPTY), &[EMPTY]) else { return };
    assert_eq!(o.merge(b"x"), Err(22));
}

/// Without an upper layer the lower ones still count from 1.
#[test]
fn lower_layers_count_from_1() {
    let Some(o) = oracle(None, &[DIR, DIR]) else { return };
    assert_eq!(o.merge(b"x"), Ok((vec![(1, 2), (2, 2)], false)));
    assert_eq!(o.view(ROOT).unwrap().stack, [(1, 1), (2, 1)]);
}

/// The root's stack holds every layer's root, even below an opaque one; its scan stops there.
#[test]
fn opaque_root() {
    let Some(o) = oracle(Some("record 1 directory 0755 opaque 1"), &[FILE]) else { return };
    let root = o.view(ROOT).unwrap();
    assert_eq!((root.stack, root.children, root.count, root.loaded), (vec![(0, 1), (1, 1)], vec![], 2, true));
}

/// A directory's scan stops before a non-directory and after an opaque directory.
#[test]
fn scan_of_a_deeper_directory() {
    let below = |name: &str| format!("{DIR}\nrecord 3 regular 0644\nentry 1 2 3 {name}");
    let opaque = format!("{OPAQUE}\nrecord 3 regular 0644\nentry 1 2 3 b");
    let Some(o) = oracle(Some(&below("a")), &[&opaque, &below("c")]) else { return };
    let x = o.lookup(ROOT, b"x").unwrap();
    assert_eq!(names(&o, x), [".", "..", "a", "b"]);
    assert_eq!(view(&o, &["x", "b"]).stack, [(1, 3)]);
    assert_eq!(view(&o, &["x", "b"]).path, [b"x".to_vec(), b"b".to_vec()]);
}

/// Other character devices and block devices are live.
#[test]
fn only_a_character_device_with_number_0_is_a_whiteout() {
    for (device, whiteout) in [("character 0 device 0", true), ("character 0 device 4294967296", false), ("block 0", false)] {
        let Some(o) = oracle(None, &[&format!("record 2 {device}\nentry 0 1 2 x")]) else { return };
        assert_eq!(o.merge(b"x"), Ok((vec![(1, 2)], whiteout)), "{device}");
    }
}
