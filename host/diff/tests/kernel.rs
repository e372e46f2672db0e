//! The kernel's overlayfs: what it does otherwise, each on its smallest input, and random layers and calls on which it agrees. Where the
//! machine allows no mount a test says so and returns.

mod common;

use common::{sides, table};
use diff::call::{Call, Target, Which};
use diff::case::Layers;
use diff::generate::{Mode, layers_of, next_call, random_layers};
use diff::kernel::{Acted, Ground, Mount, Quirk, Session, kernel_tree, lay_out, mount_layers, mountable, side_tree};
use diff::listed::rule;
use diff::need::Before;
use diff::ours::Ours;
use diff::random::Random;
use diff::side::{Answer, Make};
use overlay::Table;
use std::collections::BTreeMap;
use std::path::PathBuf;
use std::rc::Rc;

const EMPTY: &str = "";
const A: &str = "record 2 regular 0644\nentry 0 1 2 a";

fn ground() -> Option<Ground> {
    Ground::new().map_err(|words| println!("skipped: {words}")).ok()
}

fn layers(upper: Option<&str>, lower: &[&str]) -> Rc<Layers> {
    Rc::new(Layers { upper: upper.map(table), lower: lower.iter().map(|lines| table(lines)).collect() })
}

/// The paths that our side lists.
fn our_paths(layers: &Rc<Layers>) -> Vec<String> {
    let mut side = Ours::side(layers);
    side.call(&Call::Import);
    let tree = side_tree(side.as_mut(), layers).expect("a tree").expect("nodes enough");
    tree.keys().map(|path| path.iter().map(|n| format!("/{}", overlay::text::name(n))).collect()).collect()
}

fn mounted_paths(ground: &Ground, layers: &Layers) -> (Vec<String>, usize) {
    let mount = mount_layers(ground, layers).expect("a mount");
    let (tree, listed) = kernel_tree(mount.path()).expect("a tree");
    (tree.keys().map(|path| path.iter().map(|n| format!("/{}", overlay::text::name(n))).collect()).collect(), listed)
}

#[test]
fn an_opaque_mark_on_a_layers_root() {
    let Some(ground) = ground() else { return };
    let opaque = overlay::text::table("record 1 directory 0755 opaque 1").expect("a table");
    let layers = Rc::new(Layers { upper: Some(opaque), lower: vec![table(A)] });
    assert_eq!(our_paths(&layers), [""], "01 ends the scan of the root there");
    assert_eq!(mounted_paths(&ground, &layers), (vec!["".to_string(), "/a".to_string()], 0), "the kernel does not look at it");
    assert_eq!(mountable(&layers).1, [Quirk::OpaqueRoot]);
}

#[test]
fn a_whiteout_in_a_directory_that_is_not_merged() {
    let Some(ground) = ground() else { return };
    let layers = layers(Some("record 2 directory 0755\nrecord 3 character 0\nentry 0 1 2 d\nentry 1 2 3 w"), &[EMPTY]);
    assert_eq!(our_paths(&layers), ["", "/d"]);
    let mount = mount_layers(&ground, &layers).expect("a mount");
    let listed: Vec<_> = std::fs::read_dir(mount.path().join("d")).expect("a folder").map(|e| e.expect("an entry").file_name()).collect();
    assert_eq!(listed, ["w"], "the kernel lists it");
    assert!(!mount.path().join("d/w").exists(), "and refuses its lookup");
    drop(mount);
    let mut session = Session::new(&ground, &Ours::side, &layers).expect("a mount").expect("nodes enough");
    assert_eq!(session.compare(), Ok(Some(Quirk::WhiteoutListed)));
}

/// In a directory that is merged, as the root is here, it does not.
#[test]
fn a_whiteout_in_a_directory_that_is_merged() {
    let Some(ground) = ground() else { return };
    let layers = layers(Some("record 2 character 0\nentry 0 1 2 w"), &[EMPTY]);
    assert_eq!(our_paths(&layers), [""]);
    assert_eq!(mounted_paths(&ground, &layers), (vec!["".to_string()], 0));
}

#[test]
fn a_lower_layer_is_wanted() {
    let Some(ground) = ground() else { return };
    let alone = layers(Some(A), &[]);
    assert_eq!(our_paths(&alone), ["", "/a"]);
    let [upper, work, at] = ["upper", "work", "mount"].map(|name| ground.folder(name).expect("a folder"));
    lay_out(alone.upper.as_ref().expect("an upper layer"), &upper).expect("a layout");
    let refused = |lower: &[PathBuf], above| Mount::new(lower, above, at.clone()).err().and_then(|e| e.raw_os_error());
    assert_eq!(refused(&[], Some((upper.as_path(), work.as_path()))), Some(22), "an upper layer alone");
    assert_eq!(refused(std::slice::from_ref(&upper), None), Some(22), "one lower layer alone");
    assert_eq!(mounted_paths(&ground, &alone).0, ["", "/a"], "with an empty folder below it agrees");
    assert_eq!(mountable(&alone).1, [Quirk::LowerWanted]);
    assert_eq!(mountable(&layers(None, &[A])).1, [Quirk::LowerWanted]);
}

/// 256 names need 257 nodes.
#[test]
fn no_limit_of_nodes() {
    let Some(ground) = ground() else { return };
    let crowd = |k: usize, files: usize| -> Table {
        let lines = (0..files).map(|i| format!("record {} regular 0644\nentry {i} 1 {} n{k}-{i}\n", i + 2, i + 2));
        table(&lines.collect::<String>())
    };
    let layers = Rc::new(Layers { upper: None, lower: vec![crowd(1, 127), crowd(2, 127), crowd(3, 2)] });
    assert!(Session::new(&ground, &Ours::side, &layers).expect("a refusal that is listed").is_none());
    assert_eq!(mounted_paths(&ground, &layers).0.len(), 257);
}

#[test]
fn random_layers_agree() {
    let Some(ground) = ground() else { return };
    let mut listed = 0;
    for seed in 0..100 {
        let (layers, _) = mountable(&random_layers(&mut Random::new(seed)).1);
        let Some(mut session) = Session::new(&ground, &Ours::side, &Rc::new(layers)).expect("a mount") else { continue };
        let quirk = session.compare().unwrap_or_else(|words| panic!("seed {seed}: {words}"));
        listed += usize::from(quirk == Some(Quirk::WhiteoutListed));
    }
    assert!(listed > 0, "whiteouts in directories that are not merged come up");
}

/// What is made on a mount is what the same call makes, after each call and after mounts anew in between: with the library, and with the
/// Rust in our place wherever no listed difference is met.
fn calls_that_write_agree(make: Make, follow: impl Fn(&Before, &Call<u64>) -> bool) {
    let Some(ground) = ground() else { return };
    let acts: Vec<Which> = Which::ALL.into_iter().filter(|which| which.writes()).collect();
    let mut came = BTreeMap::new();
    for seed in 0..60 {
        let mut random = Random::new(seed);
        let mode = if seed % 3 == 0 { Mode::Missing } else { Mode::Few };
        let layers = Rc::new(mountable(&layers_of(&mut random, mode)).0);
        let mut session = Session::new(&ground, make, &layers).expect("a mount").expect("nodes enough");
        session.compare().expect("the same tree");
        for i in 0..10 {
            let standing = session.side().standing();
            let call: Call<Target> = if i % 4 == 3 { Call::Import } else { next_call(&mut random, &acts, &standing, &layers) };
            let numbered = call.renamed(|target| match target {
                Target::Path(path) => standing.number(path),
                Target::Number(number) => Some(*number),
            });
            if numbered.is_some_and(|call| !follow(&Before { standing: &standing, layers: &layers }, &call)) {
                continue;
            }
            let acted = session.act(&call).unwrap_or_else(|words| panic!("seed {seed}, {call:?}: {words}"));
            session.compare().unwrap_or_else(|words| panic!("seed {seed}, {call:?}: {words}"));
            *came.entry((call.which(), acted)).or_insert(0) += 1;
        }
    }
    for acted in [Acted::Made, Acted::Refused] {
        assert!(acts.iter().all(|which| came.get(&(*which, acted)).is_some_and(|n| *n > 3)), "{came:?}");
    }
}

#[test]
fn calls_that_write_agree_with_the_library() {
    calls_that_write_agree(&Ours::side, |_, _| true);
}

#[test]
fn calls_that_write_agree_with_the_rust() {
    let Some(sides) = sides() else { return };
    calls_that_write_agree(sides.rust, |before, call| rule(before, call).is_none());
}

/// What is copied up, made in a lower directory and linked lies in the upper folder after it.
#[test]
fn what_is_written_lies_in_the_upper_folder() {
    let Some(ground) = ground() else { return };
    let lower = "record 2 directory 0750\nrecord 3 regular 0640 content 7\nentry 0 1 2 d\nentry 1 2 3 f";
    let layers = layers(Some(EMPTY), &[lower]);
    let mut session = Session::new(&ground, &Ours::side, &layers).expect("a mount").expect("nodes enough");
    session.compare().expect("the same tree");
    let at = |path: &[&str]| Target::Path(path.iter().map(|n| n.as_bytes().to_vec()).collect());
    let link = Call::Link { source: at(&["d", "f"]), parent: at(&[]), name: b"g".to_vec() };
    for call in [Call::CopyUp { node: at(&["d", "f"]) }, link, Call::Import] {
        assert_ne!(session.act(&call), Ok(Acted::Skipped));
        assert_eq!(session.compare(), Ok(None));
    }
    let (tree, _) = kernel_tree(&ground.path("upper")).expect("a tree");
    let paths: Vec<String> = tree.keys().map(|path| path.iter().map(|n| format!("/{}", overlay::text::name(n))).collect()).collect();
    assert_eq!(paths, ["", "/d", "/d/f", "/g"]);
}

/// A name of 29 bytes, and a 129th record.
#[test]
fn no_limit_of_places_and_longer_names() {
    let Some(ground) = ground() else { return };
    let full = overlay::text::table(&common::filled("", 128)).expect("a table");
    let layers = Rc::new(Layers { upper: Some(full), lower: vec![table(EMPTY)] });
    let mut side = Ours::side(&layers);
    side.call(&Call::Import);
    let mount = mount_layers(&ground, &layers).expect("a mount");
    for (name, errno) in [(diff::generate::LONG, 36), ("n", 28)] {
        let create = Call::Create { parent: overlay::ROOT, name: name.into(), permissions: 0o644, umask: 0 };
        assert_eq!(side.call(&create), Answer::Refused(errno));
        std::fs::File::create_new(mount.path().join(name)).expect("the mount accepts it");
    }
}

/// Both refuse, so the runs compare no numbers.
#[test]
fn the_order_of_a_links_tests() {
    let Some(ground) = ground() else { return };
    let upper = "record 2 directory 0755\nrecord 3 regular 0644\nentry 0 1 2 d\nentry 1 1 3 f";
    let layers = layers(Some(upper), &[EMPTY]);
    let mut side = Ours::side(&layers);
    side.call(&Call::Import);
    assert_eq!(side.call(&Call::Link { source: 2, parent: overlay::ROOT, name: b"f".to_vec() }), Answer::Refused(1));
    let mount = mount_layers(&ground, &layers).expect("a mount");
    let refused = std::fs::hard_link(mount.path().join("d"), mount.path().join("f"));
    assert_eq!(refused.err().and_then(|e| e.raw_os_error()), Some(17));
}

/// Nothing is seen outside the thread that made the ground.
#[test]
fn nothing_is_left_behind() {
    let before = std::fs::read_to_string("/proc/self/mounts").expect("this process's mounts");
    let within = std::thread::spawn(|| ground().map(|_ground| std::fs::read_to_string("/proc/thread-self/mounts").expect("mounts")));
    if let Some(within) = within.join().expect("the thread") {
        assert_ne!(before, within);
    }
    assert_eq!(before, std::fs::read_to_string("/proc/self/mounts").expect("this process's mounts"));
}
