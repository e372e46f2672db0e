//! What the Rust does outside document 01's domain, on the smallest inputs.

mod common;

use common::*;
use overlay::Kind;

const A: &str = "record 2 regular 0644\nentry 0 1 2 a";

#[test]
fn mknod_of_a_whiteout_is_accepted_and_shows_live_until_the_next_import() {
    let Some(o) = oracle(Some(EMPTY), &[A]) else { return };
    let made = o.mknod(ROOT, b"w", Kind::Character.number(), 0, 0, 0).unwrap();
    assert_eq!(o.lookup(ROOT, b"w"), Ok(made));
    assert_eq!(names(&o, ROOT), [".", "..", "a", "w"]);
    assert_eq!(o.count(ROOT), Ok((2, 0)));
    let Some(again) = over(Some(&upper(&o)), &[table(A)]) else { return };
    assert_eq!(again.lookup(ROOT, b"w"), Err(2));
    assert_eq!(again.count(ROOT), Ok((1, 1)));
}

#[test]
fn the_empty_name_dot_and_the_roots_dot_dot_are_found() {
    let Some(o) = oracle(Some("record 2 directory 0755\nentry 0 1 2 d"), &[]) else { return };
    let d = o.lookup(ROOT, b"d").unwrap();
    for (parent, name, found) in
        [(ROOT, "", Ok(ROOT)), (ROOT, ".", Ok(ROOT)), (ROOT, "..", Ok(ROOT)), (d, "", Ok(d)), (d, ".", Ok(d)), (d, "..", Err(2))]
    {
        assert_eq!(o.lookup(parent, name.as_bytes()), found, "{parent} {name}");
    }
}

#[test]
fn an_import_of_no_layer_gives_2() {
    let Some(answer) = answer(None, &[]) else { return };
    assert_eq!(answer.err(), Some(2));
}

#[test]
fn bad_tables_are_accepted() {
    let unnamed_record = "record 2 regular 0644";
    let shared_name = "record 2 regular 0644\nentry 0 1 2 a\nentry 1 1 2 a";
    let permissions = "record 2 regular 010000\nentry 0 1 2 a";
    let no_record = "entry 0 1 2 a";
    for (lines, live) in [(unnamed_record, 0), (shared_name, 1), (permissions, 1), (no_record, 0)] {
        let Some(o) = oracle(Some(lines), &[]) else { return };
        assert_eq!(o.count(ROOT), Ok((live, 0)), "{lines}");
    }
}

#[test]
fn a_copied_up_device_becomes_a_regular_file() {
    let Some(o) = oracle(Some(EMPTY), &["record 2 block 0640 device 7\nentry 0 1 2 b"]) else { return };
    o.copy_up(node(&o, &["b"])).unwrap();
    assert_eq!(upper(&o), table("record 2 regular 0640\nentry 0 1 2 b"));
}

#[test]
fn forget_to_0_leaves_the_parent_loaded_so_the_name_is_gone_for_good() {
    let Some(o) = oracle(Some(EMPTY), &[A]) else { return };
    o.forget(node(&o, &["a"]), 1);
    let root = o.view(ROOT).unwrap();
    assert_eq!((root.loaded, root.children), (true, vec![]));
    o.load(ROOT).unwrap();
    assert_eq!(o.lookup(ROOT, b"a"), Err(2));
    assert_eq!(names(&o, ROOT), [".", ".."]);
}

#[test]
fn after_forgetting_a_lower_file_a_creation_over_it_succeeds() {
    let Some(o) = oracle(Some(EMPTY), &[A]) else { return };
    o.forget(node(&o, &["a"]), 1);
    o.create(ROOT, b"a", 0o600, 0).unwrap();
    assert_eq!(upper(&o), table("record 2 regular 0600\nentry 0 1 2 a"));
}

#[test]
fn after_forgetting_an_upper_whiteout_a_creation_gives_17_for_good() {
    let whiteout = "record 2 character 0\nentry 0 1 2 a";
    let Some(o) = oracle(Some(whiteout), &[A]) else { return };
    o.forget(node(&o, &["a"]), 1);
    assert_eq!(o.create(ROOT, b"a", 0o644, 0), Err(17));
    assert_eq!(o.lookup(ROOT, b"a"), Err(2));
    assert_eq!(o.create(ROOT, b"a", 0o644, 0), Err(17));
    assert_eq!(upper(&o), table(whiteout));
}

#[test]
fn a_copied_up_fifo_becomes_a_regular_file_too() {
    let Some(o) = oracle(Some(EMPTY), &["record 2 fifo 0640\nentry 0 1 2 p"]) else { return };
    o.copy_up(node(&o, &["p"])).unwrap();
    assert_eq!(upper(&o), table("record 2 regular 0640\nentry 0 1 2 p"));
}

/// Only a directory lists its "..", so the node is one that `do_mkdir` makes.
#[test]
fn a_created_node_has_no_parent_so_its_dot_dot_is_the_roots() {
    let Some(o) = oracle(Some("record 2 directory 0755\nentry 0 1 2 d"), &[]) else { return };
    let d = o.lookup(ROOT, b"d").unwrap();
    let e = o.mkdir(d, b"e", 0o755, 0).unwrap();
    let parent = |o: &oracle::Oracle, n| o.list(n).unwrap().into_iter().find(|l| l.name == b"..").unwrap().inode;
    assert_eq!(parent(&o, e), 1);
    let Some(again) = over(Some(&upper(&o)), &[]) else { return };
    again.lookup(ROOT, b"d").unwrap();
    assert_eq!(parent(&again, node(&again, &["d", "e"])), 2);
}

/// Having no parent, it also stays in the directory's table: lookup answers a number that no other call knows.
#[test]
fn a_created_node_forgotten_to_0_keeps_its_name() {
    let Some(o) = oracle(Some(EMPTY), &[]) else { return };
    let n = o.create(ROOT, b"n", 0o644, 0).unwrap();
    o.forget(n, 1);
    assert_eq!(o.view(n), None);
    assert_eq!(o.lookup(ROOT, b"n"), Ok(n));
    assert_eq!(o.copy_up(n), Err(2));
}

#[test]
fn names_that_are_not_utf_8_vanish() {
    let Some(o) = oracle(Some("record 2 regular 0644\nentry 0 1 2 a\\ff\nentry 1 1 2 b"), &[]) else { return };
    assert_eq!(names(&o, ROOT), [".", "..", "b"]);
    assert_eq!(o.lookup(ROOT, b"a\xff"), Err(2));
}

#[test]
fn numbers_are_kept_by_path_and_given_again() {
    let Some(o) = oracle(Some(EMPTY), &[A]) else { return };
    let a = node(&o, &["a"]);
    o.forget(a, 1);
    assert_eq!(o.view(a), None);
    assert_eq!(o.create(ROOT, b"b", 0o644, 0), Ok(a + 1));
    assert_eq!(o.create(ROOT, b"a", 0o644, 0), Ok(a));
}
