//! Damaged bytes: shown and explained just as the library reads them.
mod common;

use bilqarush_tool::kind::Kind;
use common::random::Random;

fn sound(kind: Kind, random: &mut Random) -> Vec<u8> {
    let bytes = match kind {
        Kind::Image => random.image().to_bytes(),
        Kind::Job => random.job().to_bytes(),
        Kind::Index => random.index().to_bytes(),
        Kind::Indexes => {
            let indexes = random.list(4, Random::index);
            return indexes
                .iter()
                .flat_map(|index| index.to_bytes().unwrap())
                .collect();
        }
        Kind::Anchors => random.anchors().to_bytes(),
        Kind::Plan => random.plan().to_bytes(),
        Kind::Range => random.range().to_bytes(),
    };
    bytes.unwrap()
}

/// One byte other, some left out or some put in.
fn damage(bytes: &mut Vec<u8>, random: &mut Random) {
    let at = random.below(bytes.len() + 1);
    match random.below(3) {
        0 if at < bytes.len() => bytes[at] = random.next() as u8,
        1 => bytes.truncate(at),
        _ => bytes.insert(at, random.next() as u8),
    }
}

/// Bytes that have a text come back from it. Those without one are refused by the library, for the same reason.
#[test]
fn of_every_kind() {
    let (mut shown, mut refused) = (0, 0);
    for seed in 1..=3_000 {
        for kind in Kind::ALL {
            let mut random = Random::new(seed);
            let mut bytes = sound(kind, &mut random);
            damage(&mut bytes, &mut random);
            match kind.text_of(&bytes) {
                Ok(text) => {
                    assert_eq!(
                        kind.bytes_of(text.as_bytes()).unwrap().value,
                        bytes,
                        "{text}"
                    );
                    shown += 1;
                }
                Err(refusal) => {
                    let explained = kind.explain(&bytes).unwrap();
                    assert_eq!(explained.stop, refusal.stop, "{kind:?} {bytes:?}");
                    assert!(explained.place.is_some());
                    refused += 1;
                }
            }
        }
    }
    assert!(shown > 1_000 && refused > 1_000, "{shown} {refused}");
}

#[test]
fn too_long() {
    for kind in Kind::ALL {
        let bytes = vec![0; 65_537];
        let refusal = kind.text_of(&bytes).unwrap_err();
        assert_eq!(kind.explain(&bytes), Some(refusal), "{kind:?}");
    }
}
