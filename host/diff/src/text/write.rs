//! A case written as replay lines; what both sides answered stands behind `#`.

use crate::call::{Call, Which};
use crate::case::{Case, Layers};
use crate::run::{Made, Step, run_case};
use crate::side::{Answer, Sides};
use overlay::text;
use std::fmt::Display;

/// The lines of the layers, `import` left out.
pub fn layers_lines(layers: &Layers) -> String {
    let mut out = format!("layers {} {}\n", u8::from(layers.upper.is_some()), layers.lower.len());
    for (k, table) in layers.upper.iter().map(|t| (0, t)).chain((1..).zip(&layers.lower)) {
        out.push_str(&format!("layer {k}\n{}", text::print(table)));
        if !out.ends_with('\n') {
            out.push('\n');
        }
    }
    out
}

/// The line of a call, its nodes as they are given: our numbers, or paths.
pub fn call_line<N: Display>(call: &Call<N>) -> String {
    let word = call.which().word();
    match call {
        Call::Import => word.to_string(),
        Call::Lookup { parent, name } => format!("{word} {parent} {}", text::name(name)).trim_end().to_string(),
        Call::Count { node } | Call::Node { node } | Call::CopyUp { node } => format!("{word} {node}"),
        Call::List { node, offset, size, buffer } if *buffer as u64 == *size => format!("{word} {node} {offset} {size}"),
        Call::List { node, offset, size, buffer } => format!("{word} {node} {offset} {size} {buffer}"),
        Call::Forget { node, amount } => format!("{word} {node} {amount}"),
        Call::Mknod { parent, name, kind, permissions, umask, device } => {
            format!("{word} {parent} {} {kind} 0{permissions:o} 0{umask:o} {device}", text::name(name))
        }
        Call::Create { parent, name, permissions, umask } => format!("{word} {parent} {} 0{permissions:o} 0{umask:o}", text::name(name)),
        Call::Symlink { parent, name, content } => format!("{word} {parent} {} {content}", text::name(name)),
        Call::Link { source, parent, name } => format!("{word} {source} {parent} {}", text::name(name)),
    }
}

/// A page's entries, a line each.
fn entries(answer: &Answer) -> String {
    let Answer::Page(page) = answer else { return String::new() };
    let mut sorted = page.entries.clone();
    sorted.sort_by(|a, b| (a.offset, &a.name).cmp(&(b.offset, &b.name)));
    sorted.iter().map(|d| format!("\n#   inode {} type {} name {}", d.inode, d.kind, text::name(&d.name))).collect()
}

/// A call that was made, and behind `#` what both sides answered and what came of it.
fn told_call(made: &Made, step: &Step) -> String {
    let whole = if made.call.which() == Which::List { ", the whole directory" } else { "" };
    let came = match step {
        Step::Diverged(divergence) => format!("\n# differs: {divergence}"),
        Step::Listed(difference) => format!("\n# listed difference: {difference}"),
        Step::Agreed(_) | Step::Skipped => String::new(),
    };
    let (ours, rust) = (&made.ours, &made.rust);
    format!("{}\n# here: {ours}{}\n# the Rust: {rust}{whole}{}{came}\n", call_line(&made.call), entries(ours), entries(rust))
}

/// A case run on both sides and written down.
pub fn told(sides: Sides, case: &Case) -> String {
    let mut out = layers_lines(&case.layers);
    run_case(sides, case, |made, step| {
        if let Some(made) = made {
            out.push_str(&told_call(made, step));
        }
    });
    out
}
