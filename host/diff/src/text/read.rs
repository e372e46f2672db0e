//! A case read back from replay lines. Nodes are named by our numbers there; here a path such as `/d/f` may stand in a number's place.

use crate::call::{Call, Target, Which};
use crate::case::{Case, Layers};
use overlay::{Table, text};
use std::rc::Rc;
use std::str::SplitWhitespace;

/// The case that these lines tell: `layers`, `layer` and table lines, one `import`, then calls. A heading and a comment say nothing.
pub fn read_case(lines: &str) -> Result<Case, String> {
    let mut reader = Reader { layers: Layers { upper: None, lower: Vec::new() }, calls: Vec::new(), layer: 0, imported: false };
    for (i, line) in lines.lines().enumerate() {
        reader.line(line).map_err(|e| format!("line {}: {e}", i + 1))?;
    }
    if !reader.imported {
        return Err("the layers are not imported: write `import` behind them".to_string());
    }
    Ok(Case { layers: Rc::new(reader.layers), calls: reader.calls })
}

struct Reader {
    layers: Layers,
    calls: Vec<Call<Target>>,
    layer: usize,
    imported: bool,
}

impl Reader {
    fn line(&mut self, line: &str) -> Result<(), String> {
        let mut words = line.split_whitespace();
        match words.next() {
            None => Ok(()),
            Some(word) if word.starts_with('#') || word.starts_with("==") => Ok(()),
            Some("layers") => {
                self.layers.upper = (number(&mut words, "U")? == 1).then(Table::empty);
                self.layers.lower = vec![Table::empty(); number(&mut words, "N")? as usize];
                self.layer = usize::from(self.layers.upper.is_none());
                Ok(())
            }
            Some("layer") => {
                self.layer = number(&mut words, "K")? as usize;
                Ok(())
            }
            Some("record" | "entry" | "byte") => text::put_line(self.table()?, line),
            Some("import") if !self.imported => {
                self.imported = true;
                Ok(())
            }
            Some(word) => {
                self.calls.push(call(word, words)?);
                Ok(())
            }
        }
    }

    fn table(&mut self) -> Result<&mut Table, String> {
        let none = format!("there is no layer {}: say so in `layers U N` first", self.layer);
        self.layers.table_mut(self.layer as u8).ok_or(none)
    }
}

/// A number, octal where it starts with 0.
fn number(words: &mut SplitWhitespace, what: &str) -> Result<u64, String> {
    let word = words.next().ok_or(format!("{what} is missing: write a number"))?;
    let read = if word.starts_with('0') { u64::from_str_radix(word, 8) } else { word.parse() };
    read.map_err(|_| format!("`{word}` is no number for {what}"))
}

fn small(words: &mut SplitWhitespace, what: &str) -> Result<u32, String> {
    let number = number(words, what)?;
    u32::try_from(number).map_err(|_| format!("{number} has over 32 bits, too many for {what}"))
}

fn node(words: &mut SplitWhitespace, what: &str) -> Result<Target, String> {
    match words.clone().next().and_then(|word| word.strip_prefix('/')) {
        Some(path) => {
            words.next();
            Ok(Target::Path(path.split('/').filter(|name| !name.is_empty()).map(text::unescape).collect()))
        }
        None => number(words, what).map(Target::Number),
    }
}

/// A name; none is the empty one.
fn name(words: &mut SplitWhitespace) -> Vec<u8> {
    text::unescape(words.next().unwrap_or(""))
}

fn call(word: &str, mut rest: SplitWhitespace) -> Result<Call<Target>, String> {
    let w = &mut rest;
    let which = Which::ALL.into_iter().find(|which| which.word() == word);
    Ok(match which.ok_or(format!("`{word}` starts no line: write a table's line or a call (docs/REPLAY.md)"))? {
        Which::Import => Call::Import,
        Which::Lookup => Call::Lookup { parent: node(w, "PARENT")?, name: name(w) },
        Which::Count => Call::Count { node: node(w, "NODE")? },
        Which::List => list(w)?,
        Which::Forget => Call::Forget { node: node(w, "NODE")?, amount: number(w, "AMOUNT")? },
        Which::Node => Call::Node { node: node(w, "NODE")? },
        Which::Mknod => Call::Mknod {
            parent: node(w, "PARENT")?,
            name: name(w),
            kind: small(w, "KIND")?,
            permissions: small(w, "PERMISSIONS")?,
            umask: small(w, "UMASK")?,
            device: number(w, "DEVICE")?,
        },
        Which::Create => {
            Call::Create { parent: node(w, "PARENT")?, name: name(w), permissions: small(w, "PERMISSIONS")?, umask: small(w, "UMASK")? }
        }
        Which::Symlink => Call::Symlink { parent: node(w, "PARENT")?, name: name(w), content: number(w, "CONTENT")? },
        Which::Link => Call::Link { source: node(w, "SOURCE")?, parent: node(w, "PARENT")?, name: name(w) },
        Which::CopyUp => Call::CopyUp { node: node(w, "NODE")? },
    })
}

/// `list NODE OFFSET SIZE [BUFFER]`
fn list(w: &mut SplitWhitespace) -> Result<Call<Target>, String> {
    let (node, offset, size) = (node(w, "NODE")?, number(w, "OFFSET")?, number(w, "SIZE")?);
    let buffer = if w.clone().next().is_some() { number(w, "BUFFER")? } else { size };
    Ok(Call::List { node, offset, size, buffer: buffer as usize })
}

#[cfg(test)]
mod tests {
    use super::*;
    use crate::text::{call_line, layers_lines};

    const LINES: &str = "layers 1 1\nlayer 0\nrecord 1 directory 0755\nlayer 1\nrecord 1 directory 0755\nrecord 2 regular 0644 size 5\n\
                         entry 0 1 2 a\n";
    const CALLS: &str = "lookup 1 a\nlookup 1\nlookup 1 \\c3\\a9\ncount 1\nlist 1 0 96\nlist 1 2 96 64\nforget 2 1\nnode 2\nimport\n\
                         mknod 1 b 2 0644 022 7\ncreate 1 b 0644 022\nsymlink 1 b 9\nlink 2 1 b\ncopy_up 2\n";

    #[test]
    fn what_is_read_is_written() {
        let case = read_case(&format!("== a heading\n# a comment\n{LINES}import\n{CALLS}")).expect("a case");
        assert_eq!(layers_lines(&case.layers), LINES);
        let numbered = |target: &Target| if let Target::Number(n) = target { Some(*n) } else { None };
        let lines: Vec<String> = case.calls.iter().map(|c| call_line(&c.renamed(numbered).expect("numbers"))).collect();
        assert_eq!(lines.join("\n"), CALLS.trim_end());
        assert_eq!(case.calls.len(), 14);
    }

    #[test]
    fn a_path_stands_for_a_number() {
        let case = read_case("layers 0 1\nimport\ncount /\nlookup /d/\\c3\\a9 x").expect("a case");
        let named = |path: &[&str]| Target::Path(path.iter().map(|n| n.as_bytes().to_vec()).collect());
        assert_eq!(case.calls[0], Call::Count { node: named(&[]) });
        assert_eq!(case.calls[1], Call::Lookup { parent: named(&["d", "é"]), name: b"x".to_vec() });
    }

    #[test]
    fn what_is_wrong_is_told() {
        for (lines, words) in [
            ("layers 1 0\nlayer 2\nrecord 1 directory 0755\nimport", "line 3: there is no layer 2"),
            ("layers 1 0\nimport\nlookup x a", "line 3: `x` is no number for PARENT"),
            ("layers 1 0\nimport\nopen 1", "line 3: `open` starts no line"),
            ("layers 1 0", "not imported"),
        ] {
            let told = read_case(lines).unwrap_err();
            assert!(told.contains(words), "{told}");
        }
    }
}
