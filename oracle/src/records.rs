//! What the writers of records share.
use std::collections::HashMap;

/// The length of the head of a record on images, commits or lookups.
pub const HEAD: usize = 20;

/// A record on images, commits or lookups: a call, two numbers, and bytes with their length.
pub fn record(call: u8, x: u64, y: u64, bytes: &[u8]) -> Vec<u8> {
    let mut record = vec![call];
    record.extend(x.to_be_bytes());
    record.extend(y.to_be_bytes());
    record.extend(&u32::try_from(bytes.len()).unwrap().to_be_bytes()[1..]);
    record.extend(bytes);
    record
}

/// `sample [SEED [N]]` or `big SEED N`: whether the run is small, the seed, and the count.
pub fn arguments(given: &[String], sample: usize) -> Option<(bool, u64, usize)> {
    let number = |at: usize, default: Option<u64>| {
        given
            .get(at)
            .map_or(default, |text| text.parse::<u64>().ok())
    };
    let (small, seed, count) = match given.first().map(String::as_str) {
        Some("sample") if given.len() <= 3 => {
            (true, number(1, Some(1))?, number(2, Some(sample as u64))?)
        }
        Some("big") if given.len() == 3 => (false, number(1, None)?, number(2, None)?),
        _ => return None,
    };
    Some((small, seed, count as usize))
}

/// A step in which a held buffer becomes another.
pub enum Piece<'a> {
    /// So many bytes stay, and these follow them.
    Put(usize, &'a [u8]),
    /// It gets so long, each byte repeating the one so far before it.
    Repeat(usize, usize),
}

/// The steps in which a held buffer becomes this one, none if it is: what the two share at the front
/// is kept, and what repeats bytes that stand before it is not written out.
pub fn pieces<'a>(held: &[u8], buffer: &'a [u8]) -> Vec<Piece<'a>> {
    const LEAST: usize = 2 * HEAD;
    const WINDOW: usize = 16;
    let same = buffer.iter().zip(held).take_while(|(a, b)| a == b);
    let kept = same.count();
    let mut pieces = vec![];
    if kept == buffer.len() && kept == held.len() {
        return pieces;
    }
    // Where the bytes at a place were seen last.
    let mut last: HashMap<&[u8], usize> = HashMap::new();
    let window = |at: usize| buffer.get(at..at + WINDOW);
    last.extend((0..kept).filter_map(|at| Some((window(at)?, at))));
    let (mut written, mut at) = (kept, kept);
    while at < buffer.len() {
        let before = window(at).and_then(|bytes| last.get(bytes).copied());
        let length = before.map_or(0, |before| {
            let pairs = buffer[at..].iter().zip(&buffer[before..]);
            pairs.take_while(|(a, b)| a == b).count()
        });
        let end = at + length.max(1);
        if length > LEAST {
            if pieces.is_empty() || written < at {
                pieces.push(Piece::Put(written, &buffer[written..at]));
            }
            pieces.push(Piece::Repeat(end, at - before.unwrap()));
            written = end;
        }
        last.extend((at..end).filter_map(|at| Some((window(at)?, at))));
        at = end;
    }
    if pieces.is_empty() || written < buffer.len() {
        pieces.push(Piece::Put(written, &buffer[written..]));
    }
    pieces
}
