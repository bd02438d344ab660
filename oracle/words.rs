//! The words of a call script's line.

#![allow(dead_code)]

/// The words before the comment, if they are text.
pub fn words(line: &[u8]) -> Option<Vec<&str>> {
    let line = line.strip_suffix(b"\n").unwrap_or(line);
    let call = line.split(|byte| *byte == b'#').next().unwrap_or(line);
    let words = std::str::from_utf8(call).ok()?.split([' ', '\t', '\r']);
    Some(words.filter(|word| !word.is_empty()).collect())
}

/// Whether nothing is printed for the line.
pub fn is_silent(line: &[u8]) -> bool {
    words(line).is_some_and(|words| words.is_empty())
}

pub fn first(line: &str) -> &str {
    words(line.as_bytes())
        .and_then(|words| words.first().copied())
        .unwrap_or("")
}
