//! What the runs print is read by the program `replay`, which answers the same.

mod common;

use common::sides;
use diff::call::CALLS;
use diff::cases::{Plan, random_case};
use diff::run::run_case;
use diff::side::Answer;
use diff::tally::Tally;
use diff::text::told;
use std::io::Write;
use std::path::PathBuf;
use std::process::{Command, Stdio};

/// What `replay` prints for these lines: the answers alone, a listing's entries behind their answer.
fn replayed(replay: &PathBuf, lines: &str) -> Vec<String> {
    let mut child = Command::new(replay).stdin(Stdio::piped()).stdout(Stdio::piped()).spawn().expect("replay starts");
    child.stdin.take().expect("its input").write_all(lines.as_bytes()).expect("replay reads");
    let printed = String::from_utf8(child.wait_with_output().expect("replay ends").stdout).expect("text");
    let answers = printed.lines().map(str::trim).filter(|line| line.starts_with("errno ") || line.starts_with("inode "));
    answers.map(String::from).collect()
}

/// The answer's line in `replay`'s words: a refusal has its value too, which is 0.
fn answer_lines(call: &str, answer: &Answer) -> Vec<String> {
    match (call, answer) {
        ("lookup" | "mknod" | "create" | "symlink" | "link", Answer::Refused(errno)) => vec![format!("errno {errno} node 0")],
        ("count", Answer::Refused(errno)) => vec![format!("errno {errno} live 0 whiteouts 0")],
        ("list", Answer::Refused(errno)) => vec![format!("errno {errno} bytes 0")],
        ("node", Answer::Seen(_)) => vec!["errno 0".to_string()],
        ("forget", _) => vec![],
        (_, Answer::Page(page)) => {
            let bytes: usize = page.entries.iter().map(|d| 24 + d.name.len().next_multiple_of(8)).sum();
            let first = format!("errno 0 bytes {bytes}{}", if page.remains { " entries remain" } else { "" });
            let entry = |d: &diff::side::Dirent| {
                format!("inode {} offset {} type {} name {}", d.inode, d.offset, d.kind, overlay::text::name(&d.name))
            };
            std::iter::once(first).chain(page.entries.iter().map(entry)).collect()
        }
        (_, answer) => vec![answer.to_string()],
    }
}

#[test]
fn printed_cases_are_read_by_replay() {
    let Some(sides) = sides() else { return };
    let replay = PathBuf::from(concat!(env!("CARGO_MANIFEST_DIR"), "/../../crates/replay/out/replay"));
    if !replay.exists() || !cfg!(target_arch = "x86_64") {
        println!("skipped: the program replay is not there for this machine: make it with `tools/program replay`");
        return;
    }
    if replayed(&replay, "layers 1 0\nlayer 0\nrecord 1 directory 0755\nimport\ncreate 1 a 0644 0\n").len() != 2 {
        println!("skipped: the program replay is older than the calls that write: make it anew with `tools/program replay`");
        return;
    }
    let plan = Plan { cases: 0, seed: 11, time: None, calls: CALLS.to_vec() };
    for number in 0..60 {
        let (case, found) = random_case(sides, &plan, number, &mut Tally::default());
        assert!(found.is_none(), "{found:?}");
        let mut expected = Vec::new();
        run_case(sides, &case, |made, _| {
            let made = made.expect("every target is resident");
            expected.extend(answer_lines(made.call.which().word(), &made.ours));
        });
        assert_eq!(replayed(&replay, &told(sides, &case)), expected, "case {number}\n{}", told(sides, &case));
    }
}
