//! Each listed difference on its smallest input, with both sides' answers. Of those at calls that write also what each side leaves, and
//! that the Rust in our place is noticed.

mod common;

use common::{case, filled, last, sides};
use diff::call::Call;
use diff::case::Case;
use diff::compare::What;
use diff::listed::{Difference, Met, rule};
use diff::need::Before;
use diff::run::{Run, Step, run_case};
use diff::shrink::shrink_while;
use diff::side::{Answer, Sides};
use overlay::Table;

const EMPTY: &str = "record 1 directory 0755\n";

/// One lower layer under an empty upper one.
fn over(upper: &str, lower: &str, calls: &str) -> Case {
    case(&format!("layers 1 1\nlayer 0\n{upper}\nlayer 1\n{EMPTY}{lower}\nimport\n{calls}\n"))
}

/// One upper layer alone.
fn alone(lines: &str, calls: &str) -> Case {
    case(&format!("layers 1 0\nlayer 0\n{EMPTY}{lines}\nimport\n{calls}\n"))
}

/// How much there is of a case.
fn size(case: &Case) -> (usize, usize, usize) {
    let tables: Vec<_> = case.layers.upper.iter().chain(&case.layers.lower).collect();
    (tables.len(), tables.iter().map(|t| t.entries().count()).sum(), case.calls.len())
}

/// The last call meets the difference, each side answering as given; and shrinking finds nothing smaller that does.
#[track_caller]
fn met(case: &Case, difference: Difference, ours: &str, rust: &str) {
    let Some(sides) = sides() else { return };
    let (made, step) = last(sides, case);
    assert!(matches!(step, Step::Listed(d) | Step::Agreed(Some(d)) if d == difference), "{step:?}");
    assert_eq!((made.ours.to_string().as_str(), made.rust.to_string().as_str()), (ours, rust));
    let mut same = |candidate: &Case| {
        let mut met = false;
        let diverged = run_case(sides, candidate, |_, step| {
            met |= matches!(step, Step::Listed(d) | Step::Agreed(Some(d)) if *d == difference);
        });
        met && diverged.is_none()
    };
    assert_eq!(size(&shrink_while(case.clone(), &mut same)), size(case), "a smaller case meets it too");
}

/// The rule's answer before the last call, with the Rust on both sides, and what came of the call.
fn in_our_place(sides: Sides, case: &Case) -> (Option<Met>, Answer, Step) {
    let sides = Sides { ours: sides.rust, rust: sides.rust };
    let mut run = Run::new(sides, &case.layers);
    let (last, calls) = case.calls.split_last().expect("a call");
    for call in std::iter::once(&Call::Import).chain(calls) {
        let (_, step) = run.step(call);
        assert!(matches!(step, Step::Agreed(_)), "{call:?}: {step:?}");
    }
    let numbered = run.numbered(last).expect("a resident node");
    let met = rule(&Before { standing: run.standing(), layers: &case.layers }, &numbered);
    let (made, step) = run.step(last);
    (met, made.expect("a call").rust, step)
}

/// A difference of a call that writes, both sides run: their answers, and that ours leaves the upper layer as it was where it refuses. The
/// Rust leaves it as these lines say on top of what was there; in our place that is noticed.
#[track_caller]
fn written(case: &Case, difference: Difference, answers: [&str; 2], left: &str, noticed: What) -> Option<Run> {
    let sides = sides()?;
    let mut run = Run::new(sides, &case.layers);
    let (last, calls) = case.calls.split_last().expect("a call");
    for call in std::iter::once(&Call::Import).chain(calls) {
        assert!(matches!(run.step(call).1, Step::Agreed(_)), "{call:?}");
    }
    let (made, step) = run.step(last);
    let made = made.expect("a resident node");
    assert_eq!(step, Step::Listed(difference));
    assert_eq!([made.ours.to_string(), made.rust.to_string()], answers);
    let before = case.layers.upper.as_ref().expect("an upper layer");
    if matches!(made.ours, Answer::Refused(_)) {
        assert_eq!(run.standing().upper.as_ref(), Some(before), "no change here");
    }
    assert_eq!(run.there().upper, Some(with(before, left)), "what the Rust leaves");
    let (met, answer, step) = in_our_place(sides, case);
    assert_eq!((met.map(|m| m.difference), answer.to_string().as_str()), (Some(difference), answers[1]));
    assert!(matches!(&step, Step::Diverged(d) if d.what == noticed), "{step:?}");
    Some(run)
}

/// A table with these lines put into it.
fn with(table: &Table, lines: &str) -> Table {
    let mut table = table.clone();
    lines.lines().for_each(|line| overlay::text::put_line(&mut table, line).expect("a table's line"));
    table
}

#[test]
fn difference_1_lookup_in_a_file() {
    met(&alone("record 2 regular 0644\nentry 0 1 2 f", "lookup 2 x"), Difference::LookupInFile, "errno 20", "errno 2");
}

#[test]
fn difference_2_count_of_a_whiteout() {
    met(&alone("record 2 character 0\nentry 0 1 2 w", "count 2"), Difference::CountOfWhiteout, "errno 2", "errno 20");
}

/// No stop: the driver loads before it counts. Without that the Rust counts nothing.
#[test]
fn difference_2_count_of_a_directory_that_is_not_loaded() {
    let lines = "record 2 directory 0755\nrecord 3 regular 0644\nentry 0 1 2 d\nentry 1 2 3 f";
    let Some(sides) = sides() else { return };
    let (made, step) = last(sides, &alone(lines, "count 2"));
    assert_eq!(step, Step::Agreed(Some(Difference::CountDoesNotLoad)));
    assert_eq!((made.ours.to_string(), made.ours), ("errno 0 live 1 whiteouts 0".to_string(), made.rust));
    let upper = common::table(lines);
    let not_loaded = oracle::Oracle::import(Some(upper.bytes()), &[]).expect("an import");
    let (_, d) = not_loaded.view(1).expect("the root").children[0];
    assert_eq!(not_loaded.count(d), Ok((0, 0)));
}

const LOWER_FILE: &str = "record 2 regular 0644\nentry 0 1 2 f";

#[test]
fn difference_3_creation_in_a_lower_file() {
    for call in ["create /f n 0644 0", "mknod /f n 1 0644 0 0", "symlink /f n 7"] {
        let case = over(EMPTY, LOWER_FILE, call);
        written(&case, Difference::CreationInLowerFile, ["errno 20"; 2], LOWER_FILE, What::Refusal);
        met(&case, Difference::CreationInLowerFile, "errno 20", "errno 20");
    }
}

#[test]
fn difference_4_a_long_name_after_making_directories() {
    let lower = "record 2 directory 0755\nentry 0 1 2 d";
    for call in ["create /d NAME 0644 0", "mknod /d NAME 1 0644 0 0", "symlink /d NAME 7"] {
        let case = over(EMPTY, lower, &call.replace("NAME", diff::generate::LONG));
        written(&case, Difference::LongNameLate, ["errno 36"; 2], lower, What::Refusal);
        met(&case, Difference::LongNameLate, "errno 36", "errno 36");
    }
}

const LOWER_D_F: &str = "record 2 directory 0755\nrecord 3 regular 0644\nentry 0 1 2 d\nentry 1 2 3 f";

/// The Rust's `d` stays made, in the last place.
#[test]
fn difference_5_no_place_in_mid_call() {
    let case = over(&filled("", 127), LOWER_D_F, "count /d\ncopy_up /d/f");
    let made = "record 128 directory 0755\nentry 126 1 128 d";
    written(&case, Difference::FullInMidCall, ["errno 28"; 2], made, What::Refusal);
}

/// With the upper layer that the Rust leaves, the lower `a` shows at the next import.
#[test]
fn difference_6_no_place_after_the_whiteout_is_gone() {
    let upper = filled("record 2 character 0\nentry 0 1 2 a\nentry 1 1 2 b", 128);
    let (lower, a) = ("record 2 regular 0644\nentry 0 1 2 a", "lookup 1 a");
    let case = over(&upper, lower, "create / a 0644 0");
    let gone: String = (0..32).map(|at| format!("byte {} 0\n", 4096 + at)).collect();
    let Some(run) = written(&case, Difference::FullAfterWhiteout, ["errno 28"; 2], &gone, What::Refusal) else { return };
    let sides = sides().expect("the run had both");
    for (left, answer) in [(run.standing(), Answer::Refused(2)), (run.there(), Answer::Node(2))] {
        let lines = overlay::text::print(left.upper.as_ref().expect("an upper layer"));
        assert_eq!(last(sides, &over(&lines, lower, a)).0.ours, answer);
    }
}

const LOWER_F_G: &str = "record 2 regular 0644\nrecord 3 regular 0644\nentry 0 1 2 f\nentry 1 1 3 g";

#[test]
fn difference_7_link_refused_after_copying_up() {
    let case = over(EMPTY, LOWER_F_G, "link /f /g x");
    written(&case, Difference::LinkRefusedLate, ["errno 20"; 2], LOWER_F_G, What::Refusal);
    let long = over(EMPTY, LOWER_FILE, &format!("link /f / {}", diff::generate::LONG));
    written(&long, Difference::LinkRefusedLate, ["errno 36"; 2], LOWER_FILE, What::Refusal);
    met(&long, Difference::LinkRefusedLate, "errno 36", "errno 36");
}

#[test]
fn difference_8_link_tests_a_live_name_last() {
    let case = over(EMPTY, LOWER_F_G, "link /f / g");
    written(&case, Difference::LinkNameLate, ["errno 17"; 2], LOWER_FILE, What::Refusal);
}

/// Document 01 accepts, as the whiteout's places count as free: the source takes its record and the link its entry.
#[test]
fn difference_9_link_deletes_the_whiteout_late() {
    let upper = filled("record 2 character 0\nentry 0 1 2 a", 128);
    let case = over(&upper, "record 2 regular 0644\nentry 0 1 2 s", "link /s / a");
    let answers = ["errno 0 node 2", "errno 28"];
    let Some(run) = written(&case, Difference::LinkWhiteoutLate, answers, "", What::Listed) else { return };
    let before = case.layers.upper.as_ref().expect("an upper layer");
    let linked = "record 2 regular 0644\nentry 0 1 2 s\nentry 127 1 2 a";
    assert_eq!(run.standing().upper, Some(with(before, linked)));
}

/// No stop: only what is resident here is compared.
#[test]
fn difference_10_lookup_loads_what_it_finds() {
    let case = alone("record 2 directory 0755\nentry 0 1 2 d", "lookup 1 d");
    met(&case, Difference::LookupLoads, "errno 0 node 2", "errno 0 node 2");
    let Some(sides) = sides() else { return };
    let mut run = Run::new(sides, &case.layers);
    std::iter::once(&Call::Import).chain(&case.calls).for_each(|call| drop(run.step(call)));
    assert!(!run.standing().nodes[&2].loaded);
    let upper = case.layers.upper.as_ref().expect("an upper layer");
    let rust = oracle::Oracle::import(Some(upper.bytes()), &[]).expect("an import");
    let d = rust.lookup(1, b"d").expect("a directory");
    assert!(rust.view(d).expect("the directory").loaded);
}

/// Layer `k` with this many files of its own in the root.
fn crowd(k: usize, files: usize) -> String {
    let lines = (0..files).map(|i| format!("record {} regular 0644\nentry {i} 1 {} n{k}-{i}\n", i + 2, i + 2));
    format!("layer {k}\n{EMPTY}{}", lines.collect::<String>())
}

/// 256 names need 257 nodes.
#[test]
fn difference_11_no_limit_of_nodes() {
    let names = |last| case(&format!("layers 0 3\n{}{}{}import\n", crowd(1, 127), crowd(2, 127), crowd(3, last)));
    met(&names(2), Difference::NoNodeLimit, "errno 23", "errno 0");
    let Some(sides) = sides() else { return };
    let (made, step) = last(sides, &names(1));
    assert_eq!((step, made.ours), (Step::Agreed(None), Answer::Done), "255 names fit");
}

/// The same at a load: the root, 254 names and `d` are all the nodes there are.
#[test]
fn difference_11_no_limit_of_nodes_at_a_load() {
    let Some(sides) = sides() else { return };
    let d = format!("layer 3\n{EMPTY}record 2 directory 0755\nrecord 3 regular 0644\nentry 0 1 2 d\nentry 1 2 3 f\n");
    for call in ["list /d 0 4096", "count /d", "lookup /d f"] {
        let (made, step) = last(sides, &case(&format!("layers 0 3\n{}{}{d}import\n{call}", crowd(1, 127), crowd(2, 127))));
        assert_eq!(step, Step::Listed(Difference::NoNodeLimit));
        assert_eq!(made.ours, Answer::Refused(23));
        assert!(!matches!(made.rust, Answer::Refused(_)), "{call}");
    }
}

#[test]
fn an_import_of_no_layer() {
    met(&case("layers 0 0\nimport\n"), Difference::NoLayer, "errno 22", "errno 2");
}

#[test]
fn malformed_names() {
    for (name, rust) in [("", "errno 0 node 1"), (".", "errno 0 node 1"), ("..", "errno 0 node 1"), ("\\00", "errno 2")] {
        met(&alone("", &format!("lookup 1 {name}")), Difference::MalformedName, "errno 22", rust);
    }
    let Some(sides) = sides() else { return };
    let (made, step) = last(sides, &alone("record 2 directory 0755\nentry 0 1 2 d", "lookup 2 .."));
    assert_eq!((step, made.ours, made.rust), (Step::Listed(Difference::MalformedName), Answer::Refused(22), Answer::Refused(2)));
    // A "/" is refused by the same number on both sides.
    let (made, step) = last(sides, &alone("", "lookup 1 a/b"));
    assert_eq!((step, made.ours, made.rust), (Step::Agreed(None), Answer::Refused(22), Answer::Refused(22)));
}

/// A creation's and a link's malformed names. What is in every directory is there already for the Rust; a byte 0 ends in an error without a
/// number, for which the oracle has 5.
#[test]
fn malformed_names_of_calls_that_write() {
    let upper = "record 2 regular 0644\nentry 0 1 2 f";
    for (name, rust) in [(".", "errno 17"), ("..", "errno 17"), ("\\00", "errno 5")] {
        for call in [format!("create 1 {name} 0644 0"), format!("symlink 1 {name} 7"), format!("link 2 1 {name}")] {
            let Some(sides) = sides() else { return };
            let (made, step) = last(sides, &alone(upper, &call));
            assert_eq!((step, made.ours), (Step::Listed(Difference::MalformedName), Answer::Refused(22)), "{call}");
            assert_eq!(made.rust.to_string(), rust, "{call}");
        }
    }
}

/// The Rust makes one, which is live until the next import.
#[test]
fn mknod_of_a_whiteout() {
    let case = alone("", "mknod / w 2 0 0 0");
    let made = "record 2 character 0\nentry 0 1 2 w";
    let answers = ["errno 1", "errno 0 node 2"];
    let Some(run) = written(&case, Difference::WhiteoutMade, answers, made, What::Listed) else { return };
    assert!(!run.there().nodes[&2].whiteout, "live");
    let sides = sides().expect("the run had both");
    assert_eq!(last(sides, &alone(made, "lookup 1 w")).0.rust, Answer::Refused(2), "imported again it is a whiteout");
}
