//! Two and three faults at once, so that the order of the stops shows: of the buffer, of what is
//! asked for, and of the place.
use super::{covering, of_key, of_view, up_to, Inputs, RANGE_CALLS};
use crate::answers::lookups::value;
use crate::checks::{read_bound, read_index, read_key, read_range, KEY_CEILING};
use crate::inputs::images::{faulty, two_views, FAULTS};
use crate::inputs::ranges::order_images;
use crate::inputs::{image, index};
use crate::Key;

/// Indexes for each of the stops 1, 3 and 6, and good ones.
pub fn order_indexes() -> Vec<Vec<u8>> {
    let keys = |list: &[&[u8]]| -> Vec<Key> { list.iter().map(|key| key.to_vec()).collect() };
    let good = index(&keys(&[b"a", b"b", b"b"]));
    let descends = index(&keys(&[b"a", b"b", b"a\0"]));
    let mut list = vec![
        good.clone(),
        index(&[]),
        descends.clone(),
        index(&keys(&[b"b", b""])),
        vec![],
        vec![0],
        vec![0, 1],
        good[..good.len() - 1].to_vec(),
        [&good[..], b"x"].concat(),
        [&descends[..], b"x"].concat(),
        descends[..descends.len() - 1].to_vec(),
        // A length of 1,025: at the end of the input, and with bytes after it.
        [&[0, 1][..], &[0; 8], &[4, 1]].concat(),
        [&[0, 1][..], &[0; 8], &[4, 1], &[b'k'; 30]].concat(),
        [&[0, 1][..], &[0; 8], &[4, 0]].concat(),
    ];
    let mut more = good.clone();
    more[1] = 4;
    list.push(more);
    let mut fewer = descends;
    fewer[1] = 2;
    list.push(fewer);
    list
}

pub fn faults_of_indexes(out: &mut Inputs) {
    for bytes in order_indexes() {
        let stop = stop_of(&bytes);
        for length in [1, KEY_CEILING, KEY_CEILING + 1] {
            let key = vec![b'a'; length];
            let class = [
                4,
                stop,
                u8::from(read_key(&key).is_ok()),
                (length > 1) as u8,
            ];
            for asked in of_key(&key) {
                let class = [&class[..], &[asked.call, asked.number]].concat();
                if length == 1 || out.some(1, &class) {
                    out.put(&bytes, &[asked]);
                }
            }
        }
        for range in order_images() {
            let asked = covering(&range);
            let class = [5, stop, stop_of_range(&range)];
            if out.some(3, &class) {
                out.put(&bytes, &[asked]);
            }
        }
    }
}

fn stop_of(index: &[u8]) -> u8 {
    match read_index(index) {
        Ok(_) => value(index, &of_key(b"a")[0]).err().unwrap_or(0),
        Err(stop) => stop,
    }
}

fn stop_of_range(range: &[u8]) -> u8 {
    let pass = |range| crate::checks::pass(&range);
    read_range(range).and_then(pass).err().unwrap_or(0)
}

/// Images with one fault each, and a good one: with the stop.
fn order_of_images() -> Vec<(u8, Vec<u8>)> {
    let mut list = vec![(0, image(&two_views()))];
    for (stop, fault) in FAULTS {
        list.push((stop, faulty([(fault, 0); 2])));
    }
    list
}

/// Bounds as kind and key: good ones, and some for each of the stops 1 to 3.
fn order_bounds() -> Vec<(u8, Key)> {
    vec![
        (0, vec![]),
        (1, b"k".to_vec()),
        (2, vec![]),
        (0, b"k".to_vec()),
        (3, vec![]),
        (255, b"k".to_vec()),
        (1, vec![b'k'; KEY_CEILING + 1]),
        (0, vec![b'k'; KEY_CEILING + 1]),
        (3, vec![b'k'; KEY_CEILING + 1]),
        (2, vec![b'k'; KEY_CEILING]),
    ]
}

pub fn faults_of_images(out: &mut Inputs) {
    for (fault, (stop, bytes)) in order_of_images().into_iter().enumerate() {
        let mut wanted = vec![];
        // Each fault of the checks 4 to 7 by itself, and of the fields each number.
        let fault = if stop < 4 { 100 + stop } else { fault as u8 };
        for range in order_images() {
            let asked_stop = stop_of_range(&range);
            for (number, (run, view)) in [(0, 1), (0, 2), (2, 0)].into_iter().enumerate() {
                let class = [6, fault, asked_stop, u8::from(number == 0)];
                for call in RANGE_CALLS {
                    if out.some(1, &[&class[..], &[call]].concat()) {
                        wanted.push(of_view(call, run, view, &range));
                    }
                }
                for (kind, end) in order_bounds() {
                    let end_stop = read_bound(kind, &end).err().unwrap_or(0);
                    // Of what comes after a fault of the bound, or of the image before it, less.
                    let rest = match stop > 0 && stop < 4 || end_stop > 0 {
                        true => [u8::from(asked_stop > 0), 0],
                        false => [asked_stop, u8::from(number == 0)],
                    };
                    let class = [7, fault, end_stop, rest[0], rest[1]];
                    if out.some(1, &class) {
                        wanted.push(up_to(run, view, (kind, &end), &range));
                    }
                }
            }
        }
        out.put(&bytes, &wanted);
    }
}
