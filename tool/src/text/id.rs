//! Ids of tables and views in the text form.

/// An id as errors name it.
pub const EXPECTED: &str = "an id (1 to 16 or 32 hexadecimal digits, or a ULID of 26 characters)";

/// The digits of a ULID, which slatedb has in the names of its files.
const ULID_DIGITS: &[u8] = b"0123456789ABCDEFGHJKMNPQRSTVWXYZ";
const ULID_LEN: usize = 26;

/// The id that a word is.
pub fn read(word: &str) -> Option<u128> {
    match word.len() {
        ULID_LEN => ulid(word),
        1..=16 | 32 => hexadecimal(word),
        _ => None,
    }
}

fn hexadecimal(word: &str) -> Option<u128> {
    word.bytes().try_fold(0, |id, byte| {
        Some(id << 4 | u128::from(char::from(byte).to_digit(16)?))
    })
}

/// 26 digits of 5 bits are 130 bits, so that the first is 0 to 7.
fn ulid(word: &str) -> Option<u128> {
    if word.as_bytes()[0] > b'7' {
        return None;
    }
    word.bytes().try_fold(0, |id, byte| {
        let upper = byte.to_ascii_uppercase();
        let digit = ULID_DIGITS.iter().position(|&digit| digit == upper)?;
        Some(id << 5 | digit as u128)
    })
}

/// The word for an id: up to 16 digits without leading zeros, else all 32.
pub fn write(id: u128) -> String {
    match u64::try_from(id) {
        Ok(id) => format!("{id:x}"),
        Err(_) => format!("{id:032x}"),
    }
}
