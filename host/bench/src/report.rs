//! The measured rows as a table.

/// What one call costs.
pub struct Row {
    pub call: &'static str,
    pub names: usize,
    pub layers: String,
    /// Nanoseconds a call; the Rust's where it was measured.
    pub ours: f64,
    pub rust: Option<f64>,
    /// The most that ours may be of the Rust's, where there is a target.
    pub target: Option<f64>,
    /// Whether the state or the output buffer is cleared before the call.
    pub cleared: &'static str,
}

const COLUMNS: [&str; 9] = ["call", "names", "layers", "ours ns", "Rust ns", "ours/Rust", "target", "reached", "cleared first"];

impl Row {
    fn cells(&self) -> [String; 9] {
        let ratio = self.rust.map(|r| self.ours / r);
        let verdict = |r: f64| self.target.map(|t| if r <= t { "yes" } else { "NO" });
        let shown = |x: Option<String>| x.unwrap_or_else(|| "-".into());
        [
            self.call.into(),
            self.names.to_string(),
            self.layers.clone(),
            format!("{:.1}", self.ours),
            shown(self.rust.map(|r| format!("{r:.1}"))),
            shown(ratio.map(|r| format!("{r:.2}"))),
            shown(self.target.map(|t| format!("<= {t:.2}"))),
            shown(ratio.and_then(verdict).map(Into::into)),
            self.cleared.into(),
        ]
    }
}

/// The rows under their column names, aligned; as a table of Markdown where asked.
pub fn table(rows: &[Row], markdown: bool) -> String {
    let mut lines = vec![COLUMNS.map(String::from)];
    lines.extend(rows.iter().map(Row::cells));
    let widths: Vec<usize> = (0..COLUMNS.len()).map(|c| lines.iter().map(|l| l[c].len()).max().unwrap_or(0)).collect();
    if markdown {
        lines.insert(1, std::array::from_fn(|c| if is_number(c) { "-".repeat(widths[c] - 1) + ":" } else { "-".repeat(widths[c]) }));
    }
    let (open, between, close) = if markdown { ("| ", " | ", " |\n") } else { ("", "  ", "\n") };
    lines.iter().map(|l| format!("{open}{}{close}", padded(l, &widths).join(between))).collect()
}

/// Numbers stand at the right of their column.
fn is_number(column: usize) -> bool {
    column == 1 || (3..7).contains(&column)
}

fn padded(cells: &[String], widths: &[usize]) -> Vec<String> {
    let pad = |c: usize| if is_number(c) { format!("{:>1$}", cells[c], widths[c]) } else { format!("{:<1$}", cells[c], widths[c]) };
    (0..cells.len()).map(pad).collect()
}

#[cfg(test)]
mod tests {
    use super::*;

    fn row(rust: Option<f64>) -> Row {
        Row { call: "count", names: 10, layers: "1".into(), ours: 20.04, rust, target: Some(0.5), cleared: "no" }
    }

    #[test]
    fn a_row_says_whether_its_target_is_reached() {
        let cells = |rust| row(rust).cells()[3..8].join(" ");
        assert_eq!(cells(Some(80.0)), "20.0 80.0 0.25 <= 0.50 yes");
        assert_eq!(cells(Some(40.0)), "20.0 40.0 0.50 <= 0.50 NO");
        assert_eq!(cells(None), "20.0 - - <= 0.50 -");
    }

    #[test]
    fn columns_are_aligned() {
        for markdown in [false, true] {
            let printed = table(&[row(Some(1234.0)), row(None)], markdown);
            let lengths: Vec<usize> = printed.lines().map(str::len).collect();
            assert_eq!(lengths.len(), if markdown { 4 } else { 3 });
            assert!(lengths.iter().all(|n| *n == lengths[0]), "{printed}");
        }
    }
}
