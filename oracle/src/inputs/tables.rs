//! Tables, views, runs and parts with few words.
use crate::{Part, Range, Run, Table, View};

pub fn view(number: u8, first: &[u8], last: Option<&[u8]>, visible: Option<Range>) -> View {
    let mut id = [0; 16];
    id[15] = number;
    let mut view_id = [0xFE; 16];
    view_id[0] = number;
    View {
        id: view_id,
        table: Table {
            id,
            index_offset: 900 + u64::from(number),
            index_len: 70,
            filter_offset: 800,
            first: first.to_vec(),
            last: last.map(<[u8]>::to_vec),
        },
        visible,
    }
}

pub fn run(id: u32, views: &[View]) -> Run {
    Run {
        id,
        views: views.to_vec(),
    }
}

pub fn table(number: u8, first: &[u8], last: Option<&[u8]>) -> Table {
    view(number, first, last, None).table
}

/// Tables that have a last key, numbered from this one on.
pub fn tables(number: u8, keys: &[(&[u8], &[u8])]) -> Vec<Table> {
    let numbered = (number..).zip(keys);
    let tables = numbered.map(|(number, (first, last))| table(number, first, Some(last)));
    tables.collect()
}

pub fn part(range: Range, completed: bool, outputs: &[Table]) -> Part {
    Part {
        range,
        completed,
        outputs: outputs.to_vec(),
    }
}
