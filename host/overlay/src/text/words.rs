//! A line's words, and the numbers and names in them.

/// The words of a line, separated by spaces.
pub(super) struct Words<'a>(std::str::Split<'a, char>);

impl<'a> Words<'a> {
    pub(super) fn of(line: &'a str) -> Words<'a> {
        Words(line.split(' '))
    }

    /// The next word, or what is missing and how the whole line is written.
    pub(super) fn need(&mut self, what: &str, form: &str) -> Result<&'a str, String> {
        self.next().ok_or_else(|| format!("{what} is missing: write {form}"))
    }

    /// No word is left.
    pub(super) fn end(&mut self, form: &str) -> Result<(), String> {
        self.next().map_or(Ok(()), |w| Err(format!("`{w}` is one word too many: write {form}")))
    }
}

impl<'a> Iterator for Words<'a> {
    type Item = &'a str;

    fn next(&mut self) -> Option<&'a str> {
        self.0.find(|w| !w.is_empty())
    }
}

/// The number that a word writes, octal where it starts with 0.
fn number(word: &str) -> Option<u64> {
    let base = if word.starts_with('0') { 8 } else { 10 };
    // A sign is no digit, though the standard library takes one.
    word.bytes().all(|c| c.is_ascii_digit()).then(|| u64::from_str_radix(word, base).ok())?
}

/// A number from `least` to `most`.
pub(super) fn in_range(word: &str, least: u64, most: u64) -> Result<u64, String> {
    match number(word) {
        Some(n) if (least..=most).contains(&n) => Ok(n),
        Some(n) => Err(format!("{n} is out of range: write a number from {least} to {most}")),
        None => Err(format!("`{word}` is no number from {least} to {most}: write digits, octal ones behind a 0")),
    }
}

/// The two hexadecimal digits, small letters, behind a backslash at the front of a word.
fn escaped(word: &[u8]) -> Option<u8> {
    let [b'\\', high, low, ..] = word else { return None };
    let digit = |c: u8| (!c.is_ascii_uppercase()).then(|| char::from(c).to_digit(16)).flatten();
    Some((digit(*high)? * 16 + digit(*low)?) as u8)
}

/// The bytes that a word writes: `\2f` is the byte with that hexadecimal number (small letters); any other backslash is itself.
pub fn unescape(word: &str) -> Vec<u8> {
    let mut rest = word.as_bytes();
    let mut out = Vec::with_capacity(rest.len());
    while let Some(&first) = rest.first() {
        let byte = escaped(rest);
        out.push(byte.unwrap_or(first));
        rest = &rest[if byte.is_some() { 3 } else { 1 }..];
    }
    out
}

/// [`unescape`], but a backslash without its two digits is told.
pub(super) fn name_bytes(word: &str) -> Result<Vec<u8>, String> {
    let mut rest = word.as_bytes();
    while let Some(at) = rest.iter().position(|&c| c == b'\\') {
        escaped(&rest[at..]).ok_or_else(|| format!("a backslash in `{word}` stands alone: write two digits of 0-9a-f behind it"))?;
        rest = &rest[at + 3..];
    }
    Ok(unescape(word))
}
