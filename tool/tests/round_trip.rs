//! Text, values and bytes: each from each, and back.
mod common;

use bilqarush::typed::{Index, Indexes, Stop};
use bilqarush_tool::kind::Kind;
use bilqarush_tool::text::{key, read, write};
use common::random::Random;

/// Of each kind.
const COUNT: u64 = 3_000;

/// The text of a value is that of its bytes, and both come back from it.
#[track_caller]
fn comes_back(kind: Kind, bytes: &[u8], text: &str) {
    assert_eq!(kind.text_of(bytes).as_deref(), Ok(text));
    assert_eq!(
        kind.bytes_of(text.as_bytes()).unwrap().value,
        bytes,
        "{text}"
    );
    assert!(text.is_ascii());
}

macro_rules! round_trips {
    ($($name:ident $kind:ident $reads:path, $writes:path;)*) => {
        $(
            #[test]
            fn $name() {
                for seed in 1..=COUNT {
                    let value = Random::new(seed).$name();
                    let text = $writes(&value);
                    assert_eq!($reads(text.as_bytes()).unwrap().value, value, "{text}");
                    comes_back(Kind::$kind, &value.to_bytes().unwrap(), &text);
                }
            }
        )*
    };
}

round_trips! {
    image Image read::image, write::image;
    job Job read::job, write::job;
    index Index read::index, write::index;
    anchors Anchors read::anchors, write::anchors;
    plan Plan read::plan, write::plan;
    range Range read::range, write::range;
}

#[test]
fn indexes() {
    for seed in 1..=COUNT {
        let indexes = Random::new(seed).list(5, Random::index);
        let bytes = indexes.iter().map(|index| index.to_bytes().unwrap());
        let bytes = bytes.collect::<Vec<_>>().concat();
        let value = Indexes { indexes };
        let text = write::indexes(&value);
        assert_eq!(read::indexes(text.as_bytes()).unwrap().value, value);
        comes_back(Kind::Indexes, &bytes, &text);
    }
}

/// Every key of one byte, and every one between two letters.
#[test]
fn keys_of_all_bytes() {
    for byte in 0..=255 {
        for bytes in [&[byte][..], &[b'a', byte, b'b']] {
            let word = key::write(bytes);
            assert_eq!(key::read(&word).as_deref(), Some(bytes), "{word}");
        }
    }
}

#[test]
fn the_shortest_word_for_a_key() {
    let words = [
        ("lamp/7", "lamp/7"),
        ("lamp 7", "\"lamp 7\""),
        ("", "\"\""),
        ("-", "\"-\""),
        ("0x61", "\"0x61\""),
        ("a\"b", "0x612262"),
        ("a\\b", "0x615c62"),
        ("a\nb", "0x610a62"),
    ];
    for (bytes, word) in words {
        assert_eq!(key::write(bytes.as_bytes()), word);
    }
    assert_eq!(key::read("0x"), Some(vec![]));
    assert_eq!(key::read("0xFf"), Some(vec![255]));
}

/// What a person writes: comments, blanks, numbers left out.
#[test]
fn by_hand() {
    let text = b"# an image\r\n\n  image # of one run\r\n\trun 7\r\n\
        view 1 table 2 \"a # b\" - filter 3 visible [a -\r\n";
    let image = read::image(text).unwrap();
    assert_eq!(
        write::image(&image.value),
        "image\nrun 7\n  view 1 table 2 \"a # b\" - index 0 0 filter 3 visible [a -\n"
    );
    assert_eq!(read::range(b"range - c)"), read::range(b"- c)"));
}

/// Indexes one after the other may be too long, each by itself not.
#[test]
fn long_indexes() {
    let index = Index::new((0..40).map(|offset| (offset, vec![b'k'; 1000])));
    let text = write::indexes(&Indexes {
        indexes: vec![index.clone(), index],
    });
    let unmade = Kind::Indexes.bytes_of(text.as_bytes()).unwrap_err();
    assert_eq!(unmade, bilqarush_tool::kind::Unmade::Stop(Stop::Ceiling));
}
