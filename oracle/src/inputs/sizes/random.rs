//! Random views and runs.
use super::views::{passes, random_view, set_over, stem, MOST};
use super::{at_places, of_all, of_run, of_view, Inputs};
use crate::answers::lookups::Asked;
use crate::checks::{BUFFER_CEILING, VIEW_CEILING};
use crate::inputs::images::harm;
use crate::inputs::{run, write_image, Chance};
use crate::{key_of, Key, Run, View};

/// The key that a view's effective range starts with.
fn start(view: &View) -> Key {
    let (start, _) = crate::effective_range(view).unwrap();
    key_of(&start).expect("it starts included").clone()
}

/// Views in the order of their effective starts. Seldom in any order.
fn sorted(mut views: Vec<View>, chance: &mut Chance) -> Vec<View> {
    if views.iter().all(passes) && !chance.percent(2) {
        views.sort_by_cached_key(start);
    }
    views
}

/// A few runs of a few views; mostly one view.
fn random_runs(chance: &mut Chance, small: bool) -> Vec<Run> {
    let mut stem = stem(chance);
    // Records of long keys take much room.
    if small && chance.percent(90) {
        stem.truncate(20);
    }
    let runs = match chance.below(20) {
        0 => 2 + chance.below(2),
        _ => 1,
    };
    let run = |id: usize, chance: &mut Chance| {
        let views = match chance.below(20) {
            0 => 0,
            1..=3 if stem.len() < 200 => 2 + chance.below(4),
            _ => 1,
        };
        let views = (0..views).map(|_| random_view(&stem, chance)).collect();
        run(id as u32, &sorted(views, chance))
    };
    (0..runs).map(|id| run(id, chance)).collect()
}

/// Places of which at least one is not there.
fn missing(runs: &[Run], chance: &mut Chance) -> (u64, u64) {
    let far = *chance.of(&[1_023, 1_024, 65_536, 1 << 32, 1 << 63, u64::MAX]);
    let past = runs.len() as u64;
    let views = runs.first().map_or(0, |run| run.views.len()) as u64;
    *chance.of(&[(past, 0), (0, views), (far, 0), (0, far), (far, far)])
}

pub fn random(count: usize, out: &mut Inputs) {
    for _ in 0..count {
        let small = out.small;
        let chance = &mut out.chance;
        let mut runs = random_runs(chance, small);
        if chance.percent(3) {
            let run = chance.below(runs.len());
            if let Some(view) = runs[run].views.last_mut() {
                set_over(&mut view.table, chance);
            }
        }
        let (mut bytes, marks) = write_image(&runs);
        if chance.percent(4) {
            harm(&mut bytes, &marks, chance);
        }
        let mut asked = of_all(&runs);
        if chance.percent(6) {
            let (run, view) = missing(&runs, chance);
            asked.extend(at_places(run, view));
        }
        out.put(&bytes, &asked);
    }
}

/// So many views of small keys, as far as an image has room for what they have besides.
fn long_run(count: usize, chance: &mut Chance) -> Run {
    const VIEW: usize = 60;
    let mut left = (BUFFER_CEILING - 7).saturating_sub(VIEW * count);
    let most = *chance.of(&[0, 1, 2]);
    let is_most = chance.percent(20);
    let mut views = vec![];
    for _ in 0..count {
        let mut view = random_view(&[], chance);
        view.table.first.truncate(most);
        if let Some(last) = &mut view.table.last {
            last.truncate(most);
        }
        let more = write_image(&[run(1, std::slice::from_ref(&view))]).0.len() - 7 - VIEW;
        if !passes(&view) || more > left {
            (view.visible, view.table.last) = (None, None);
            view.table.first.clear();
        } else {
            left -= more;
        }
        if is_most {
            (view.table.index_offset, view.table.index_len) = (MOST, 0);
        }
        views.push(view);
    }
    views.sort_by_cached_key(start);
    run(4, &views)
}

/// Runs of up to 1,024 views, and of one more.
pub fn long_runs(count: usize, out: &mut Inputs) {
    let ceiling = usize::from(VIEW_CEILING);
    for _ in 0..count {
        let small = out.small;
        let chance = &mut out.chance;
        let length = match chance.below(10) {
            _ if small => chance.below(60),
            0 => ceiling - 1 + chance.below(3),
            1 => chance.below(ceiling + 1),
            2 => 500 + chance.below(300),
            3 => 100 + chance.below(400),
            _ => chance.below(100),
        };
        let runs = [long_run(length, chance)];
        let (mut bytes, marks) = write_image(&runs);
        if chance.percent(4) {
            harm(&mut bytes, &marks, chance);
        }
        let mut asked: Vec<Asked> = vec![of_run(0)];
        for _ in 0..4 {
            asked.extend(of_view(0, chance.below(length + 1) as u64));
        }
        out.put(&bytes, &asked);
    }
}
