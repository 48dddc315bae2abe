//! The checks of images, 1 to 7.
use super::{number, pass, Checked, Reader, RUN_CEILING, SIZE_CEILING, VIEW_CEILING};
use crate::{key_of, kind_of, Bound, Key, Run, Table, View};
use std::collections::HashSet;

/// A view, and the places of its keys in the image (0 where it has none).
pub struct Placed {
    pub view: View,
    pub first: usize,
    pub last: usize,
    pub start: usize,
    pub end: usize,
}

pub struct PlacedRun {
    pub id: u32,
    pub views: Vec<Placed>,
}

/// A key, and the place where it begins.
fn read_key(reader: &mut Reader) -> Checked<(Key, usize)> {
    let key = reader.key()?;
    let at = reader.at() - key.len();
    Ok((key, at))
}

/// A flag of 1 bit and 7 of padding.
fn read_flag(reader: &mut Reader) -> Checked<bool> {
    let byte = reader.take(1)?[0];
    if byte & 0x7F != 0 {
        return Err(2);
    }
    Ok(byte == 0x80)
}

fn read_id(reader: &mut Reader) -> Checked<[u8; 16]> {
    Ok(reader.take(16)?.try_into().unwrap())
}

/// A table, and the places of its keys (0 where it has none).
pub fn read_table(reader: &mut Reader) -> Checked<(Table, usize, usize)> {
    let id = read_id(reader)?;
    let index_offset = number(reader.take(8)?);
    let index_len = number(reader.take(8)?);
    let filter_offset = number(reader.take(8)?);
    let has_last = read_flag(reader)?;
    let (first, first_at) = read_key(reader)?;
    let last = if has_last {
        Some(read_key(reader)?)
    } else {
        None
    };
    let last_at = last.as_ref().map_or(0, |(_, at)| *at);
    let table = Table {
        id,
        index_offset,
        index_len,
        filter_offset,
        first,
        last: last.map(|(key, _)| key),
    };
    Ok((table, first_at, last_at))
}

fn read_view(reader: &mut Reader) -> Checked<Placed> {
    let id = read_id(reader)?;
    let (table, first, last) = read_table(reader)?;
    let visible = if read_flag(reader)? {
        Some(reader.range()?)
    } else {
        None
    };
    // The end key is the last field, and the start key comes before its length.
    let (mut start, mut end) = (0, 0);
    if let Some(range) = &visible {
        let mut at = reader.at();
        if let Some(key) = key_of(&range.1) {
            end = at - key.len();
            at = end - 2;
        }
        if let Some(key) = key_of(&range.0) {
            start = at - key.len();
        }
    }
    Ok(Placed {
        view: View { id, table, visible },
        first,
        last,
        start,
        end,
    })
}

fn read_run(reader: &mut Reader) -> Checked<PlacedRun> {
    let id = number(reader.take(4)?) as u32;
    // 12 bits, then 4 of padding: the count is checked first.
    let count = number(reader.take(2)?) as u16;
    if count >> 4 > VIEW_CEILING {
        return Err(3);
    }
    if count & 15 != 0 {
        return Err(2);
    }
    let views = (0..count >> 4).map(|_| read_view(reader));
    Ok(PlacedRun {
        id,
        views: views.collect::<Checked<_>>()?,
    })
}

pub fn read_image(buffer: &[u8]) -> Checked<Vec<PlacedRun>> {
    let mut reader = Reader::new(buffer)?;
    let count = reader.take(1)?[0];
    if count > RUN_CEILING {
        return Err(3);
    }
    let runs = (0..count).map(|_| read_run(&mut reader));
    let runs = runs.collect::<Checked<Vec<_>>>()?;
    reader.end()?;
    Ok(runs)
}

pub fn check_4(view: &View) -> Checked<()> {
    view.visible.as_ref().map_or(Ok(()), pass)
}

/// A last key that is below its first key.
pub fn descends(table: &Table) -> bool {
    table.last.as_ref().is_some_and(|last| *last < table.first)
}

/// Of a view that passes check 4.
pub fn check_5(view: &View) -> Checked<()> {
    let table = &view.table;
    if descends(table) {
        return Err(5);
    }
    if let Some(visible) = &view.visible {
        let own = crate::own_range(table).unwrap();
        if kind_of(&visible.0) == 2 || crate::intersect(&own, visible).is_none() {
            return Err(5);
        }
    }
    Ok(())
}

pub fn check_6(image: &[PlacedRun]) -> Checked<()> {
    for run in image {
        let starts: Vec<Bound> = run
            .views
            .iter()
            .map(|placed| crate::effective_range(&placed.view).unwrap().0)
            .collect();
        if starts
            .windows(2)
            .any(|pair| crate::cmp_start(&pair[0], &pair[1]) > 0)
        {
            return Err(6);
        }
    }
    let ids: HashSet<u32> = image.iter().map(|run| run.id).collect();
    if ids.len() < image.len() {
        return Err(6);
    }
    Ok(())
}

pub fn check_7(table: &Table) -> Checked<()> {
    if u128::from(table.index_offset) + u128::from(table.index_len) > SIZE_CEILING {
        return Err(7);
    }
    Ok(())
}

/// The checks 4 to 7 of an image whose fields pass.
pub fn check_read(image: &[PlacedRun]) -> Checked<()> {
    let views = || {
        let placed = image.iter().flat_map(|run| &run.views);
        placed.map(|placed| &placed.view)
    };
    // The original builds exactly the views that pass 4 and 5.
    for view in views() {
        let passes = check_4(view).is_ok() && check_5(view).is_ok();
        assert_eq!(crate::effective_range(view).is_ok(), passes);
    }
    views().try_for_each(check_4)?;
    views().try_for_each(check_5)?;
    check_6(image)?;
    views().try_for_each(|view| check_7(&view.table))
}

/// The image, if it passes the checks 1 to 7.
pub fn check_image(buffer: &[u8]) -> Checked<Vec<PlacedRun>> {
    let image = read_image(buffer)?;
    check_read(&image)?;
    Ok(image)
}

pub fn runs_of(placed: Vec<PlacedRun>) -> Vec<Run> {
    let runs = placed.into_iter().map(|run| Run {
        id: run.id,
        views: run.views.into_iter().map(|placed| placed.view).collect(),
    });
    runs.collect()
}
