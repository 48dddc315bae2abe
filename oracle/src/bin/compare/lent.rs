//! Asks the proved library. Every lent byte, and bytes on both sides of the lent buffer, hold a
//! pattern that differs from call to call, so that a change of any of them is seen.
use crate::answer::{told_part, Answer, Expected};
use crate::call::{Call, Question};
use crate::wrong::Wrong;
use bilqarush::raw::*;
use oracle::inputs::Chance;

/// Bytes before and after the lent buffer.
const EDGE: usize = 32;
/// Patterns begin at one of so many places of the noise.
const PLACES: usize = 65_536;
/// The longest lent buffer.
pub const MOST_ROOM: usize = 300_000;

pub struct Lent {
    noise: Vec<u8>,
    pub wrong: Option<Wrong>,
    pub mark: u64,
    /// The copies that are lent, each with some bytes before it, so that places in memory vary.
    pub slices: [Vec<u8>; 3],
    shift: usize,
    pub memory: Vec<u8>,
    pub room: usize,
    pub stop: u8,
    pub order: i8,
    /// Also `found` and `part`.
    pub is: u8,
    /// Also `count`, `partition` and `start`.
    pub written: usize,
    pub end: usize,
    /// Also the bits of `fraction`.
    pub size: u64,
}

/// The slots of a call.
#[derive(PartialEq, Eq)]
struct Slots {
    order: i8,
    is: u8,
    written: usize,
    end: usize,
    size: u64,
}

impl Lent {
    pub fn new(wrong: Option<Wrong>) -> Lent {
        let mut chance = Chance(1);
        let noise = (0..(PLACES + MOST_ROOM + 3 * EDGE) / 8)
            .flat_map(|_| chance.next().to_le_bytes())
            .collect();
        Lent {
            noise,
            wrong,
            mark: 0,
            slices: Default::default(),
            shift: 0,
            memory: vec![],
            room: 0,
            stop: 0,
            order: 0,
            is: 0,
            written: 0,
            end: 0,
            size: 0,
        }
    }

    /// Where the lent buffer begins.
    pub fn from(&self) -> usize {
        EDGE + self.shift
    }

    pub fn out(&self) -> &[u8] {
        &self.memory[self.from()..self.from() + self.room]
    }

    fn pattern(&self) -> &[u8] {
        let at = self.mark as usize % PLACES;
        &self.noise[at..at + self.room + 3 * EDGE]
    }

    /// The slots before the call. A `bool` is 0 or 1, and the bits of a fraction are those of a number.
    fn slots_before(&self) -> Slots {
        let mark = self.mark;
        Slots {
            order: (mark >> 16) as i8,
            is: (mark >> 24) as u8 & 1,
            written: mark as usize,
            end: mark.rotate_left(29) as usize,
            size: mark.rotate_left(43) & !(1 << 62),
        }
    }

    /// The slots as they must be after the call: an answer is told in its own, and no other changes.
    fn slots_after(&self, expected: &Expected) -> Slots {
        let mut slots = self.slots_before();
        match expected {
            Err(_) | Ok(Answer::Accepted) => {}
            Ok(Answer::Order(order)) => slots.order = *order,
            Ok(Answer::Is(is)) => slots.is = u8::from(*is),
            Ok(Answer::Number(number)) => slots.written = *number,
            Ok(Answer::Found(None)) => slots.is = 0,
            Ok(Answer::Found(Some(place))) => (slots.is, slots.written) = (1, *place),
            Ok(Answer::Places(start, end)) => (slots.written, slots.end) = (*start, *end),
            Ok(Answer::Shown(None)) => slots.is = 0,
            Ok(Answer::Shown(Some(bits))) => (slots.is, slots.size) = (1, *bits),
            Ok(Answer::Size(size)) => slots.size = *size,
            Ok(Answer::Wrote(bytes)) => slots.written = bytes.bytes.len(),
        }
        slots
    }

    fn slots(&self) -> Slots {
        Slots {
            order: self.order,
            is: self.is,
            written: self.written,
            end: self.end,
            size: self.size,
        }
    }

    pub fn ask(&mut self, question: &Question) {
        assert!(question.room <= MOST_ROOM);
        self.mark = question.mark();
        self.room = question.room;
        self.shift = (self.mark >> 32) as usize % 8;
        let given = [&question.a, &question.b, &question.c];
        for (slice, given) in self.slices.iter_mut().zip(given) {
            slice.clear();
            slice.resize(self.shift, 0);
            slice.extend(given);
        }
        let mut memory = std::mem::take(&mut self.memory);
        memory.clear();
        memory.extend(self.pattern());
        self.memory = memory;
        let slots = self.slots_before();
        (self.order, self.is) = (slots.order, slots.is);
        (self.written, self.end) = (slots.written, slots.end);
        self.size = slots.size;
        self.call(question);
        if let Some(wrong) = self.wrong {
            wrong.apply(question, self);
        }
    }

    /// Slices are never null, and what is written overlaps nothing else that is lent.
    fn call(&mut self, question: &Question) {
        let [a, b, c] = self.slices.each_ref().map(|slice| &slice[self.shift..]);
        let (a, a_len, b, b_len) = (a.as_ptr(), a.len(), b.as_ptr(), b.len());
        let (c, c_len) = (c.as_ptr(), c.len());
        let (from, room) = (self.from(), self.room);
        let out = self.memory[from..].as_mut_ptr();
        let (x, y, number) = (question.x, question.y, question.number);
        let (run, view) = (x as usize, y as usize);
        let (order, written, end) = (&mut self.order, &mut self.written, &mut self.end);
        // A byte, so that the comparison sees every bit of the `bool`.
        let is = std::ptr::from_mut(&mut self.is).cast();
        let size = std::ptr::from_mut(&mut self.size);
        // SAFETY: each pointer is valid for its length, and the slots are this struct's.
        self.stop = unsafe {
            match question.call {
                Call::Compare => bilqarush_compare(a, a_len, b, b_len, order),
                Call::CmpBound => {
                    bilqarush_cmp_bound(x as u8, a, a_len, y as u8, b, b_len, number == 1, order)
                }
                Call::NonEmpty => bilqarush_non_empty(a, a_len, is),
                Call::Contains => bilqarush_contains(a, a_len, b, b_len, is),
                Call::AsPoint => bilqarush_as_point(a, a_len, out, room, written),
                Call::Intersect => bilqarush_intersect(a, a_len, b, b_len, out, room, written),
                Call::IntersectStartKey => {
                    bilqarush_intersect_start_key(a, a_len, b, b_len, out, room, written)
                }
                Call::IntersectEndKey => {
                    bilqarush_intersect_end_key(a, a_len, b, b_len, out, room, written)
                }
                Call::Union => bilqarush_union(a, a_len, b, b_len, out, room, written),
                Call::FromPrefix => bilqarush_from_prefix(a, a_len, out, room, written),
                Call::FromPrefixAndSubrange => {
                    bilqarush_from_prefix_and_subrange(a, a_len, b, b_len, out, room, written)
                }
                Call::CheckImage => bilqarush_check_image(a, a_len),
                Call::CompactedEffectiveRange => {
                    bilqarush_compacted_effective_range(a, a_len, run, view, out, room, written)
                }
                Call::List => bilqarush_list(a, a_len, out, room, written),
                Call::Commit => bilqarush_commit(a, a_len, b, b_len, c, c_len, out, room, written),
                Call::PartitionPoint => {
                    bilqarush_partition_point(a, a_len, number == 1, b, b_len, written)
                }
                Call::FirstPartitionIncludingKey => {
                    bilqarush_first_partition_including_key(a, a_len, b, b_len, is, written)
                }
                Call::FirstPartitionIncludingOrAfterKey => {
                    bilqarush_first_partition_including_or_after_key(a, a_len, b, b_len, written)
                }
                Call::LastPartitionIncludingKey => {
                    bilqarush_last_partition_including_key(a, a_len, b, b_len, is, written)
                }
                Call::PartitionsCoveringRange => {
                    bilqarush_partitions_covering_range(a, a_len, b, b_len, written, end)
                }
                Call::TableIdxCoveringRange => {
                    bilqarush_table_idx_covering_range(a, a_len, run, b, b_len, written, end)
                }
                Call::OverlapsRange => bilqarush_overlaps_range(a, a_len, run, b, b_len, is),
                Call::CompactedIntersection => bilqarush_compacted_intersection(
                    a, a_len, run, view, b, b_len, out, room, written,
                ),
                Call::CalculateViewRange => bilqarush_calculate_view_range(
                    a, a_len, run, view, b, b_len, out, room, written,
                ),
                Call::IntersectsRange => {
                    bilqarush_intersects_range(a, a_len, run, view, number, c, c_len, b, b_len, is)
                }
                // The bits, so that no fraction is another that equals it.
                Call::VisibleFraction => {
                    bilqarush_visible_fraction(a, a_len, run, view, is, size.cast())
                }
                Call::EstimateVisibleSize => {
                    bilqarush_estimate_visible_size(a, a_len, run, view, size)
                }
                Call::EstimateRunVisibleSize => {
                    bilqarush_estimate_run_visible_size(a, a_len, run, size)
                }
                Call::SampleAnchors => {
                    bilqarush_sample_anchors(x as usize, y, a, a_len, b, b_len, out, room, written)
                }
                Call::SelectBoundaries => {
                    bilqarush_select_boundaries(x as usize, y, a, a_len, out, room, written)
                }
                Call::PlanSubcompactionRanges => bilqarush_plan_subcompaction_ranges(
                    x as usize, a, a_len, b, b_len, out, room, written,
                ),
                Call::FromCompaction => bilqarush_from_compaction(a, a_len, out, room, written),
                Call::SubtractFrom => {
                    bilqarush_subtract_from(a, a_len, b, b_len, out, room, written)
                }
            }
        };
    }

    /// What is not as it must be after the call.
    pub fn fault(&self, question: &Question, expected: &Expected) -> Option<String> {
        self.fault_in_given(question)
            .or_else(|| self.fault_in_answer(question.call, expected))
            .or_else(|| self.fault_in_rest(expected))
    }

    fn fault_in_given(&self, question: &Question) -> Option<String> {
        let given = [&question.a, &question.b, &question.c];
        for (slice, given) in self.slices.iter().zip(given) {
            if slice[self.shift..] != given[..] {
                return Some("a lent slice that is only read was changed".into());
            }
        }
        None
    }

    fn fault_in_answer(&self, call: Call, expected: &Expected) -> Option<String> {
        let due = expected.as_ref().err().copied().unwrap_or(0);
        if self.stop != due {
            return Some("the stops differ".into());
        }
        if let Ok(Answer::Wrote(bytes)) = expected {
            let length = bytes.bytes.len();
            if self.written != length || !bytes.is(&self.out()[..length]) {
                return Some("the answers differ".into());
            }
        }
        if self.slots() == self.slots_after(expected) {
            return None;
        }
        Some(match expected {
            Ok(_) => "the answers differ, or a slot that has none was changed".into(),
            Err(_) => format!("{} changed a slot after its stop", call.name()),
        })
    }

    /// What lies behind the answer, or all of the lent buffer after a stop, and the edges.
    fn fault_in_rest(&self, expected: &Expected) -> Option<String> {
        let length = match expected {
            Ok(Answer::Wrote(bytes)) => bytes.bytes.len(),
            _ => 0,
        };
        let (from, pattern) = (self.from(), self.pattern());
        let is = |places: std::ops::Range<usize>| self.memory[places.clone()] == pattern[places];
        if !is(from + length..from + self.room) {
            return Some(match expected {
                Ok(_) => "the lent buffer was changed behind the answer".into(),
                Err(_) => "the lent buffer was changed after a stop".into(),
            });
        }
        if !is(0..from) || !is(from + self.room..self.memory.len()) {
            return Some("memory beside the lent buffer was changed".into());
        }
        None
    }

    /// The answer, as it is told.
    pub fn told(&self, call: Call) -> String {
        if self.stop != 0 {
            return format!("stop {}", self.stop);
        }
        match call {
            Call::Compare | Call::CmpBound => format!("{}", self.order),
            Call::NonEmpty | Call::Contains => format!("{}", self.is),
            Call::OverlapsRange | Call::IntersectsRange => format!("{}", self.is),
            Call::CheckImage => "accepted".into(),
            Call::PartitionPoint | Call::FirstPartitionIncludingOrAfterKey => {
                format!("{}", self.written)
            }
            Call::FirstPartitionIncludingKey | Call::LastPartitionIncludingKey => match self.is {
                0 => format!("not found (partition left as {})", self.written),
                _ => format!("found {}", self.written),
            },
            Call::PartitionsCoveringRange | Call::TableIdxCoveringRange => {
                format!("{}..{}", self.written, self.end)
            }
            Call::VisibleFraction => match self.is {
                0 => format!("whole (fraction left as {:016x})", self.size),
                _ => told_part(self.size),
            },
            Call::EstimateVisibleSize | Call::EstimateRunVisibleSize => format!("{}", self.size),
            _ => {
                let shown = &self.out()[..self.written.min(self.room)];
                let shown = crate::call::hexadecimal(shown);
                format!("{} bytes: {shown}", self.written)
            }
        }
    }
}
