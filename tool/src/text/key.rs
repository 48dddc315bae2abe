//! Keys in the text form.

/// A key as errors name it.
pub const EXPECTED: &str = "a key (bare, \"quoted\" or 0x..)";

/// What a bare key is made of. The characters with a meaning of their own, as brackets, are left out.
fn is_bare(byte: u8) -> bool {
    byte.is_ascii_alphanumeric() || b"_./:@+=~%-".contains(&byte)
}

fn is_quotable(byte: u8) -> bool {
    matches!(byte, b' '..=b'~') && byte != b'"' && byte != b'\\'
}

/// Whether a word is a bare key: `-` is none, and what begins with `0x` is hexadecimal.
fn bare(word: &[u8]) -> bool {
    !word.is_empty()
        && word != b"-"
        && !word.starts_with(b"0x")
        && word.iter().all(|&byte| is_bare(byte))
}

/// The key that a word is.
pub fn read(word: &str) -> Option<Vec<u8>> {
    if let Some(digits) = word.strip_prefix("0x") {
        return hexadecimal(digits.as_bytes());
    }
    if let Some(rest) = word.strip_prefix('"') {
        let key = rest.strip_suffix('"')?.as_bytes();
        return key
            .iter()
            .all(|&byte| is_quotable(byte))
            .then(|| key.to_vec());
    }
    bare(word.as_bytes()).then(|| word.as_bytes().to_vec())
}

fn hexadecimal(digits: &[u8]) -> Option<Vec<u8>> {
    if digits.len() % 2 != 0 {
        return None;
    }
    let digit = |byte: u8| char::from(byte).to_digit(16);
    let byte = |pair: &[u8]| Some((digit(pair[0])? * 16 + digit(pair[1])?) as u8);
    digits.chunks(2).map(byte).collect()
}

/// The word for a key: bare if it can be, else quoted, else in hexadecimal.
pub fn write(key: &[u8]) -> String {
    if bare(key) {
        return String::from_utf8_lossy(key).into_owned();
    }
    if key.iter().all(|&byte| is_quotable(byte)) {
        return format!("\"{}\"", String::from_utf8_lossy(key));
    }
    let digits = key.iter().map(|byte| format!("{byte:02x}"));
    format!("0x{}", digits.collect::<String>())
}
