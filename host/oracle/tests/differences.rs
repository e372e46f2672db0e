//! The Rust's side of each difference inside document 01's domain, on its smallest input. What 01 has instead stands in docs/DIFFERENCES.md.

mod common;

use common::*;

const F: &str = "record 2 regular 0644\nentry 0 1 2 f";
const D: &str = "record 2 directory 0750\nentry 0 1 2 d";
const F_AND_G: &str = "record 2 regular 0644\nrecord 3 regular 0644\nentry 0 1 2 f\nentry 1 1 3 g";

#[test]
fn difference_1_lookup_in_a_file_gives_2() {
    let Some(o) = oracle(Some(F), &[]) else { return };
    let f = o.lookup(ROOT, b"f").unwrap();
    assert_eq!(o.lookup(f, b"x"), Err(2));
}

#[test]
fn difference_2_count_of_a_whiteout_gives_20() {
    let Some(o) = oracle(None, &["record 2 character 0\nentry 0 1 2 w"]) else { return };
    assert_eq!(o.count(node(&o, &["w"])), Err(20));
}

#[test]
fn difference_2_count_of_a_directory_not_loaded_counts_nothing() {
    let Some(o) = oracle(None, &[&format!("{D}\nrecord 3 regular 0644\nentry 1 2 3 f")]) else { return };
    let d = node(&o, &["d"]);
    assert_eq!(o.count(d), Ok((0, 0)));
    o.load(d).unwrap();
    assert_eq!(o.count(d), Ok((1, 0)));
}

#[test]
fn difference_3_creation_in_a_lower_file_copies_it_up() {
    let Some(o) = oracle(Some(EMPTY), &[F]) else { return };
    assert_eq!(o.create(node(&o, &["f"]), b"n", 0o644, 0), Err(20));
    assert_eq!(view(&o, &["f"]).stack, [(0, 2)]);
    assert_eq!(upper(&o), table(F));
}

#[test]
fn difference_4_a_name_too_long_is_refused_after_making_directories() {
    let Some(o) = oracle(Some(EMPTY), &[D]) else { return };
    assert_eq!(o.create(node(&o, &["d"]), LONG, 0o644, 0), Err(36));
    assert_eq!(view(&o, &["d"]).stack, [(0, 2), (1, 2)]);
    assert_eq!(upper(&o), table(D));
}

#[test]
fn difference_5_no_space_in_mid_call_leaves_the_directory_made() {
    let lower = table(&format!("{D}\nrecord 3 regular 0644\nentry 1 2 3 f"));
    let Some(o) = over(Some(&filled("", 127)), &[lower]) else { return };
    o.load(node(&o, &["d"])).unwrap();
    assert_eq!(o.copy_up(node(&o, &["d", "f"])), Err(28));
    assert_eq!(view(&o, &["d"]).stack, [(0, 128), (1, 2)]);
    assert_eq!(view(&o, &["d", "f"]).stack, [(1, 3)]);
    assert_eq!(upper(&o).records().count(), 128);
}

#[test]
fn difference_6_no_space_after_the_whiteout_is_gone() {
    let lower = table("record 2 regular 0644\nentry 0 1 2 a");
    let before = filled("record 2 character 0\nentry 0 1 2 a\nentry 1 1 2 b", 128);
    let Some(o) = over(Some(&before), std::slice::from_ref(&lower)) else { return };
    assert_eq!(o.create(ROOT, b"a", 0o644, 0), Err(28));
    let mut gone = before.clone();
    gone.clear_entry(0);
    assert_eq!(upper(&o), gone);
    assert_eq!(o.lookup(ROOT, b"a"), Err(2));
    let Some(again) = over(Some(&gone), &[lower]) else { return };
    assert_eq!(view(&again, &["a"]).stack, [(1, 2)]);
    again.lookup(ROOT, b"a").expect("the lower `a` shows again");
}

#[test]
fn difference_7_link_is_refused_after_copying_up_source_and_parent() {
    let Some(o) = oracle(Some(EMPTY), &[F_AND_G]) else { return };
    assert_eq!(o.link(node(&o, &["f"]), node(&o, &["g"]), b"x"), Err(20));
    assert_eq!((view(&o, &["f"]).stack, view(&o, &["g"]).stack), (vec![(0, 2)], vec![(0, 3)]));
    assert_eq!(upper(&o), table(F_AND_G));
}

#[test]
fn difference_8_link_tests_a_live_name_last() {
    let Some(o) = oracle(Some(EMPTY), &[F_AND_G]) else { return };
    assert_eq!(o.link(node(&o, &["f"]), ROOT, b"g"), Err(17));
    assert_eq!((view(&o, &["f"]).stack, view(&o, &["g"]).stack), (vec![(0, 2)], vec![(1, 3)]));
    assert_eq!(upper(&o), table(F));
}

#[test]
fn difference_9_link_deletes_the_whiteout_late() {
    let before = filled("record 2 character 0\nentry 0 1 2 a", 128);
    let Some(o) = over(Some(&before), &[table("record 2 regular 0644\nentry 0 1 2 s")]) else { return };
    assert_eq!(o.link(node(&o, &["s"]), ROOT, b"a"), Err(28));
    assert_eq!(upper(&o), before);
}

#[test]
fn difference_10_lookup_also_loads_the_directory_that_it_finds() {
    let Some(o) = oracle(None, &[&format!("{D}\nrecord 3 regular 0644\nentry 1 2 3 f")]) else { return };
    assert!(!view(&o, &["d"]).loaded);
    o.lookup(ROOT, b"d").unwrap();
    let d = view(&o, &["d"]);
    assert_eq!((d.loaded, d.children.len()), (true, 1));
}

#[test]
fn difference_11_no_limit_of_nodes() {
    let ninety = |layer: usize| {
        let lines = (2..92).map(|i| format!("record {i} regular 0644\nentry {} 1 {i} n{layer}-{i}\n", i - 2));
        table(&lines.collect::<String>())
    };
    let Some(o) = over(None, &[ninety(1), ninety(2), ninety(3)]) else { return };
    assert_eq!(o.count(ROOT), Ok((270, 0)));
    assert_eq!(o.view(ROOT).unwrap().children.len(), 270);
}
