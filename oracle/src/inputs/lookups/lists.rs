//! Indexes over a few keys.
use super::{covering, images_of, of_key, Inputs};
use crate::answers::lookups::{value, Asked, Value};
use crate::checks::Checked;
use crate::inputs::{all_ranges, index};
use crate::Key;

/// All lists of at most `most` of the keys that do not descend. The keys ascend.
pub fn ascending_lists(keys: &[Key], most: usize) -> Vec<Vec<Key>> {
    let mut lists = vec![vec![]];
    let mut from = 0;
    for _ in 0..most {
        let to = lists.len();
        for at in from..to {
            let least = lists[at].last().cloned();
            for key in keys.iter().filter(|key| Some(*key) >= least.as_ref()) {
                lists.push([lists[at].clone(), vec![key.clone()]].concat());
            }
        }
        from = to;
    }
    lists
}

/// The answer's numbers.
pub fn told(value: &Checked<Value>) -> Vec<u8> {
    match value {
        Err(stop) => vec![1, *stop],
        Ok(Value::Number(number)) => vec![2, *number as u8],
        Ok(Value::Found(None)) => vec![3],
        Ok(Value::Found(Some(place))) => vec![4, *place as u8],
        Ok(Value::Places(start, end)) => vec![5, *start as u8, *end as u8],
        Ok(Value::Is(is)) => vec![6, u8::from(*is)],
        Ok(Value::Joint(None)) => vec![7],
        Ok(Value::Joint(Some(joint))) => vec![8, joint.start.slice, joint.end.slice],
        Ok(Value::Shown(_) | Value::Bytes(_)) => unreachable!("no lookup answers these"),
    }
}

/// Lists of up to four keys, with each key and each range: in a small run one of each count, call,
/// kinds and answer.
pub fn lists(out: &mut Inputs) {
    let few = [&b""[..], b"a", b"a\0", b"b"].map(<[u8]>::to_vec);
    let mut asked: Vec<Asked> = vec![];
    for key in [&b""[..], b"a", b"a\0", b"a\0\0", b"b", b"c"] {
        asked.extend(of_key(key));
    }
    let ranges = images_of(&all_ranges(&few));
    asked.extend(ranges.iter().map(|range| covering(range)));
    let mut lists = ascending_lists(&few, 4);
    out.chance.shuffle(&mut lists);
    for list in lists {
        let bytes = index(&list);
        out.chance.shuffle(&mut asked);
        let mut wanted = vec![];
        for asked in &asked {
            let answer = value(&bytes, asked);
            let head = asked.range.first().copied().unwrap_or(0);
            let class = [1, asked.call, asked.number, head, list.len() as u8];
            if out.some(2, &[&class[..], &told(&answer)].concat()) {
                wanted.push(asked.clone());
            }
        }
        out.put(&bytes, &wanted);
    }
}
