//! Wrong answers, made on purpose: a comparison that does not see them is a defect.
use crate::call::{Call, Question};
use crate::lent::Lent;

/// What is made wrong after a call of the proved library.
#[derive(Clone, Copy, Debug, PartialEq, Eq)]
pub enum Kind {
    /// A bit of what it answered.
    Value,
    /// The count of written bytes.
    Count,
    /// It stops, though it answered.
    Refused,
    /// It answers, though it stopped.
    Answered,
    /// It stops with another number.
    OtherStop,
    /// It stops if it answered, and answers if it stopped.
    Opposite,
    /// A byte behind what it wrote.
    Rest,
    /// A byte of the lent buffer after a stop.
    AfterStop,
    /// A number slot after a stop.
    Slot,
    /// The slot of a partition, though none is found; that of a fraction, though the table is shown whole.
    Partition,
    /// The slice that supplies a bound.
    Slice,
    /// The place of a bound's key.
    Place,
    /// A byte of a slice that is only read.
    Given,
    /// A byte right after the lent buffer, and one right before it.
    After,
    Before,
}

pub const KINDS: [Kind; 14] = [
    Kind::Value,
    Kind::Count,
    Kind::Refused,
    Kind::Answered,
    Kind::OtherStop,
    Kind::Rest,
    Kind::AfterStop,
    Kind::Slot,
    Kind::Partition,
    Kind::Slice,
    Kind::Place,
    Kind::Given,
    Kind::After,
    Kind::Before,
];

/// Which questions are answered wrongly.
#[derive(Clone, Copy, Debug)]
pub enum When {
    /// One in so many.
    OneIn(u64),
    /// The one that has this mark.
    Only(u64),
    /// Those whose first slice has at least so many bytes.
    From(usize),
}

#[derive(Clone, Copy, Debug)]
pub struct Wrong {
    pub call: Call,
    pub kind: Kind,
    pub when: When,
}

impl Wrong {
    /// Whether a call can go wrong in this way at all.
    pub fn can_be(&self) -> bool {
        match self.kind {
            Kind::Value => self.call != Call::CheckImage,
            Kind::Slot => self.call != Call::CheckImage,
            Kind::Count | Kind::Rest | Kind::AfterStop | Kind::After | Kind::Before => {
                self.call.writes()
            }
            Kind::Slice | Kind::Place => self.call.joins(),
            Kind::Partition => matches!(
                self.call,
                Call::FirstPartitionIncludingKey
                    | Call::LastPartitionIncludingKey
                    | Call::VisibleFraction
            ),
            _ => true,
        }
    }

    pub fn apply(&self, question: &Question, lent: &mut Lent) {
        let chosen = match self.when {
            When::OneIn(count) => lent.mark.is_multiple_of(count),
            When::Only(mark) => lent.mark == mark,
            When::From(length) => question.a.len() >= length,
        };
        if question.call == self.call && chosen {
            self.spoil(lent);
        }
    }

    fn spoil(&self, lent: &mut Lent) {
        let stopped = lent.stop != 0;
        let (from, room) = (lent.from(), lent.room);
        match self.kind {
            Kind::Value if !stopped => self.spoil_value(lent),
            Kind::Count if !stopped => lent.written += 1,
            Kind::Refused if !stopped => lent.stop = 16,
            Kind::Answered if stopped => lent.stop = 0,
            Kind::OtherStop if stopped => lent.stop = lent.stop % 16 + 1,
            Kind::Opposite => lent.stop = if stopped { 0 } else { 16 },
            Kind::Rest if !stopped && lent.written < room => {
                let last = if lent.mark & 1 == 0 {
                    room - 1
                } else {
                    lent.written
                };
                lent.memory[from + last] ^= 1;
            }
            Kind::AfterStop if stopped && room > 0 => {
                lent.memory[from + lent.mark as usize % room] ^= 0x80;
            }
            Kind::Slot if stopped => {
                lent.order = !lent.order;
                lent.is ^= 1;
                lent.written ^= 1;
                lent.end ^= 1;
                lent.size ^= 1;
            }
            Kind::Partition if !stopped && lent.is == 0 => {
                lent.written ^= 1;
                lent.size ^= 1;
            }
            // Both bounds' slices; of the start's place the last byte, if it has a key.
            Kind::Slice if !stopped && lent.written == 37 => {
                lent.memory[from + 2] ^= 3;
                lent.memory[from + 20] ^= 3;
            }
            Kind::Place if !stopped && lent.written == 37 && lent.memory[from + 1] != 0 => {
                lent.memory[from + 10] ^= 1;
            }
            Kind::Given => {
                if let Some(last) = lent.slices[0].last_mut() {
                    *last ^= 1;
                }
            }
            Kind::After => lent.memory[from + room] ^= 1,
            Kind::Before => lent.memory[from - 1] ^= 1,
            _ => {}
        }
    }

    fn spoil_value(&self, lent: &mut Lent) {
        match self.call {
            Call::Compare | Call::CmpBound => lent.order = if lent.order == 0 { 1 } else { 0 },
            Call::NonEmpty | Call::Contains => lent.is ^= 1,
            Call::OverlapsRange | Call::IntersectsRange => lent.is ^= 1,
            Call::PartitionPoint | Call::FirstPartitionIncludingOrAfterKey => lent.written ^= 1,
            Call::FirstPartitionIncludingKey | Call::LastPartitionIncludingKey => lent.is ^= 1,
            Call::PartitionsCoveringRange | Call::TableIdxCoveringRange => lent.end ^= 1,
            // The last bit of a part's fraction; whole told as a part of 1.0.
            Call::VisibleFraction if lent.is == 0 => (lent.is, lent.size) = (1, 1f64.to_bits()),
            call if call.is_of_sizes() => lent.size ^= 1,
            _ if lent.written > 0 => {
                let from = lent.from();
                // The last byte: a place that stands for nothing is never there.
                lent.memory[from + lent.written - 1] ^= 1;
            }
            _ => {}
        }
    }
}
