//! A line, split into words.

/// The words of a line: what stands between blanks, up to a comment. In quotes a blank and `#` are as any character.
pub fn split(line: &[u8]) -> Result<Vec<&str>, String> {
    let mut words = Vec::new();
    let mut at = 0;
    while let Some(start) = next_word(line, at) {
        at = word_end(line, start)?;
        words.push(printable(&line[start..at])?);
    }
    Ok(words)
}

/// Where the next word begins, if there is one.
fn next_word(line: &[u8], at: usize) -> Option<usize> {
    let blanks = line[at..]
        .iter()
        .take_while(|byte| byte.is_ascii_whitespace());
    let start = at + blanks.count();
    match line.get(start) {
        None | Some(b'#') => None,
        Some(_) => Some(start),
    }
}

fn word_end(line: &[u8], start: usize) -> Result<usize, String> {
    let mut quoted = false;
    for (place, byte) in line.iter().enumerate().skip(start) {
        match byte {
            b'"' => quoted = !quoted,
            b'#' if !quoted => return Ok(place),
            byte if !quoted && byte.is_ascii_whitespace() => return Ok(place),
            _ => {}
        }
    }
    match quoted {
        true => Err("a \" was expected that ends the quoted key".to_string()),
        false => Ok(line.len()),
    }
}

fn printable(word: &[u8]) -> Result<&str, String> {
    let fits = |byte: &u8| byte.is_ascii_graphic() || *byte == b' ';
    match std::str::from_utf8(word) {
        Ok(word) if word.as_bytes().iter().all(fits) => Ok(word),
        _ => Err(format!(
            "printable ASCII was expected, not {:?}: other bytes of a key are written as 0x and hexadecimal digits",
            String::from_utf8_lossy(word)
        )),
    }
}
