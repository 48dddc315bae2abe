use bilqarush::*;
use std::error::Error;
use std::ops::Bound::Unbounded;

const WORDS: [&str; 16] = [
    "stop 1: the input ends inside a field, or bytes remain after the last",
    "stop 2: a padding bit is set or a kind is 3",
    "stop 3: a length, count or setting exceeds its ceiling, or a prefix and suffix join to over 1,024 bytes",
    "stop 4: a range, given (but to non_empty) or joined from a prefix and a subrange, fails non_empty",
    "stop 5: a last key is below its first key, a visible range starts excluded, or it does not meet its table's own range",
    "stop 6: view starts in a run or first keys within one index image descend, or two runs share an id",
    "stop 7: anchor bytes total 2^63 or more, or index_offset + index_len exceeds 2^53",
    "stop 8: the destination is not a source",
    "stop 9: a source, or a run or view called by place, is not in the image",
    "stop 10: a planned range starts excluded or ends included, or a part begins before the previous part's end (unbounded is least as a start, greatest as an end)",
    "stop 11: an output lacks a last key, is not wholly inside its planned range, or starts below the last key of its part's previous output",
    "stop 12: a destination view of an output table holds some key that lies in no durable interval",
    "stop 13: a retained range misses its table's own range",
    "stop 14: the id supply is used up with an id still to draw",
    "stop 15: a result has over 1,024 views in a run, over 4,096 anchors, or is an image over 65,536 bytes",
    "stop 16: the output buffer is shorter than the answer",
];

#[test]
fn each_stop_in_words() {
    for (number, words) in (1..).zip(WORDS) {
        let stop = Stop::from_number(number).unwrap();
        assert_eq!(stop.number(), number);
        assert_eq!(stop.to_string(), words);
    }
}

#[test]
fn no_other_number_is_a_stop() {
    assert_eq!(Stop::from_number(0), None);
    assert!((17..=255).all(|number| Stop::from_number(number).is_none()));
}

#[test]
fn a_stop_is_an_error() {
    let stop = bilqarush::check_image(b"").unwrap_err();
    let error: Box<dyn Error + Send + Sync> = stop.into();
    assert_eq!(error.to_string(), WORDS[0]);
}

#[test]
fn no_bytes_are_stop_1_of_each_lookup_size_plan_and_interval() {
    let nothing = b"";
    let stops = [
        partition_point(nothing, Test::Below, b"a").unwrap_err(),
        first_partition_including_key(nothing, b"a").unwrap_err(),
        first_partition_including_or_after_key(nothing, b"a").unwrap_err(),
        last_partition_including_key(nothing, b"a").unwrap_err(),
        partitions_covering_range(nothing, nothing).unwrap_err(),
        table_idx_covering_range(nothing, 0, nothing).unwrap_err(),
        overlaps_range(nothing, 0, nothing).unwrap_err(),
        compacted_intersection(nothing, 0, 0, nothing).unwrap_err(),
        calculate_view_range(nothing, 0, 0, nothing).unwrap_err(),
        intersects_range(nothing, 0, 0, Unbounded, nothing).unwrap_err(),
        visible_fraction(nothing, 0, 0).unwrap_err(),
        estimate_visible_size(nothing, 0, 0).unwrap_err(),
        estimate_run_visible_size(nothing, 0).unwrap_err(),
        sample_anchors(1, 0, nothing, nothing, &mut []).unwrap_err(),
        select_boundaries(1, 0, nothing, &mut []).unwrap_err(),
        plan_subcompaction_ranges(1, nothing, nothing, &mut []).unwrap_err(),
        from_compaction(nothing, &mut []).unwrap_err(),
        subtract_from(nothing, nothing, &mut []).unwrap_err(),
    ];
    assert!(stops.iter().all(|stop| stop.to_string() == WORDS[0]));
}
