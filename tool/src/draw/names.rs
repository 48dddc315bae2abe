//! What tables are called in a picture, and which of them are new.
use super::facts::Facts;
use bilqarush::typed::TableId;
use std::collections::BTreeMap;

/// Most digits of an id that stands in a bar.
const DIGITS: usize = 4;

pub(super) struct Tables {
    by_id: BTreeMap<TableId, Named>,
    numbered: bool,
    widest: usize,
}

pub(super) struct Named {
    /// In hexadecimal without leading zeros, or a number.
    pub(super) label: String,
    /// Whether the job wrote it; without a job, whether the first scene is without it.
    pub(super) new: bool,
    /// Its place among the new tables, or among the others, as they first occur.
    pub(super) turn: usize,
    place: usize,
}

impl Tables {
    pub(super) fn new(facts: &Facts) -> Tables {
        let mut ids = Vec::new();
        let scenes = facts.scenes.iter().enumerate();
        for (scene, runs) in scenes {
            let new = facts.progress.is_none() && scene > 0;
            let views = runs.iter().flat_map(|run| &run.views);
            ids.extend(views.map(|view| (view.table, new)));
        }
        if let Some(progress) = &facts.progress {
            let outputs = progress.outputs.iter().flatten();
            ids.extend(outputs.map(|output| (output.table, true)));
        }
        Tables::named(&ids, facts.progress.is_some())
    }

    /// The job's word on a table, which comes last, counts before a scene's; of scenes the first counts.
    fn named(ids: &[(TableId, bool)], last_counts: bool) -> Tables {
        let numbered = ids.iter().any(|(id, _)| short(*id).len() > DIGITS);
        let mut by_id: BTreeMap<TableId, Named> = BTreeMap::new();
        for (id, new) in ids {
            let place = by_id.len();
            let named = by_id.entry(*id).or_insert_with(|| Named {
                label: match numbered {
                    true => format!("T{}", place + 1),
                    false => short(*id),
                },
                new: *new,
                turn: 0,
                place,
            });
            named.new |= last_counts && *new;
        }
        let mut turns = [0, 0];
        let mut in_order: Vec<&mut Named> = by_id.values_mut().collect();
        in_order.sort_by_key(|named| named.place);
        for named in in_order {
            let turn = &mut turns[usize::from(named.new)];
            named.turn = *turn;
            *turn += 1;
        }
        let widest = by_id.values().map(|named| named.label.len()).max();
        Tables {
            widest: widest.unwrap_or(0),
            by_id,
            numbered,
        }
    }

    /// A table that occurs.
    pub(super) fn of(&self, id: TableId) -> &Named {
        &self.by_id[&id]
    }

    /// The length of the longest label.
    pub(super) fn widest(&self) -> usize {
        self.widest
    }

    /// Which table each number stands for, if they are numbered.
    pub(super) fn legend(&self) -> Vec<(&str, TableId)> {
        if !self.numbered {
            return Vec::new();
        }
        let mut tables: Vec<_> = self.by_id.iter().collect();
        tables.sort_by_key(|(_, named)| named.place);
        let rows = tables.into_iter();
        rows.map(|(id, named)| (named.label.as_str(), *id))
            .collect()
    }

    /// Whether there are tables that are new, and others.
    pub(super) fn kinds(&self) -> (bool, bool) {
        let any = |new| self.by_id.values().any(|named| named.new == new);
        (any(true), any(false))
    }
}

fn short(id: TableId) -> String {
    format!("{:x}", id.0)
}
