//! The public calls, and what they are asked.
use oracle::answers::commits::Case;
use oracle::answers::lookups::{Asked, VISIBLE_FRACTION};
use oracle::answers::plans;
use oracle::answers::progress;
use oracle::answers::ranges::{self, Input};

#[derive(Clone, Copy, Debug, PartialEq, Eq, PartialOrd, Ord)]
pub enum Call {
    Compare,
    CmpBound,
    NonEmpty,
    Contains,
    AsPoint,
    Intersect,
    IntersectStartKey,
    IntersectEndKey,
    Union,
    FromPrefix,
    FromPrefixAndSubrange,
    CheckImage,
    CompactedEffectiveRange,
    List,
    Commit,
    PartitionPoint,
    FirstPartitionIncludingKey,
    FirstPartitionIncludingOrAfterKey,
    LastPartitionIncludingKey,
    PartitionsCoveringRange,
    TableIdxCoveringRange,
    OverlapsRange,
    CompactedIntersection,
    CalculateViewRange,
    IntersectsRange,
    VisibleFraction,
    EstimateVisibleSize,
    EstimateRunVisibleSize,
    SampleAnchors,
    SelectBoundaries,
    PlanSubcompactionRanges,
    FromCompaction,
    SubtractFrom,
}

impl Call {
    pub const ALL: [Call; 33] = [
        Call::Compare,
        Call::CmpBound,
        Call::NonEmpty,
        Call::Contains,
        Call::AsPoint,
        Call::Intersect,
        Call::IntersectStartKey,
        Call::IntersectEndKey,
        Call::Union,
        Call::FromPrefix,
        Call::FromPrefixAndSubrange,
        Call::CheckImage,
        Call::CompactedEffectiveRange,
        Call::List,
        Call::Commit,
        Call::PartitionPoint,
        Call::FirstPartitionIncludingKey,
        Call::FirstPartitionIncludingOrAfterKey,
        Call::LastPartitionIncludingKey,
        Call::PartitionsCoveringRange,
        Call::TableIdxCoveringRange,
        Call::OverlapsRange,
        Call::CompactedIntersection,
        Call::CalculateViewRange,
        Call::IntersectsRange,
        Call::VisibleFraction,
        Call::EstimateVisibleSize,
        Call::EstimateRunVisibleSize,
        Call::SampleAnchors,
        Call::SelectBoundaries,
        Call::PlanSubcompactionRanges,
        Call::FromCompaction,
        Call::SubtractFrom,
    ];

    pub fn name(self) -> &'static str {
        match self {
            Call::Compare => "compare",
            Call::CmpBound => "cmp_bound",
            Call::NonEmpty => "non_empty",
            Call::Contains => "contains",
            Call::AsPoint => "as_point",
            Call::Intersect => "intersect",
            Call::IntersectStartKey => "intersect_start_key",
            Call::IntersectEndKey => "intersect_end_key",
            Call::Union => "union",
            Call::FromPrefix => "from_prefix",
            Call::FromPrefixAndSubrange => "from_prefix_and_subrange",
            Call::CheckImage => "check_image",
            Call::CompactedEffectiveRange => "compacted_effective_range",
            Call::List => "list",
            Call::Commit => "commit",
            Call::PartitionPoint => "partition_point",
            Call::FirstPartitionIncludingKey => "first_partition_including_key",
            Call::FirstPartitionIncludingOrAfterKey => "first_partition_including_or_after_key",
            Call::LastPartitionIncludingKey => "last_partition_including_key",
            Call::PartitionsCoveringRange => "partitions_covering_range",
            Call::TableIdxCoveringRange => "table_idx_covering_range",
            Call::OverlapsRange => "overlaps_range",
            Call::CompactedIntersection => "compacted_intersection",
            Call::CalculateViewRange => "calculate_view_range",
            Call::IntersectsRange => "intersects_range",
            Call::VisibleFraction => "visible_fraction",
            Call::EstimateVisibleSize => "estimate_visible_size",
            Call::EstimateRunVisibleSize => "estimate_run_visible_size",
            Call::SampleAnchors => "sample_anchors",
            Call::SelectBoundaries => "select_boundaries",
            Call::PlanSubcompactionRanges => "plan_subcompaction_ranges",
            Call::FromCompaction => "from_compaction",
            Call::SubtractFrom => "subtract_from",
        }
    }

    pub fn is_on_ranges(self) -> bool {
        self < Call::CheckImage
    }

    /// A lookup by its number: from 1 on, and from 12 on a call on visible sizes.
    pub fn of_lookup(number: u8) -> Call {
        let place = match number {
            VISIBLE_FRACTION.. => Call::VisibleFraction as u8 + (number - VISIBLE_FRACTION),
            _ => Call::Commit as u8 + number,
        };
        Call::ALL[usize::from(place)]
    }

    /// The number of a lookup.
    pub fn lookup(self) -> Option<u8> {
        if self.is_of_sizes() {
            return Some(VISIBLE_FRACTION + (self as u8 - Call::VisibleFraction as u8));
        }
        let is_lookup = (Call::PartitionPoint..Call::SampleAnchors).contains(&self);
        is_lookup.then(|| self as u8 - Call::Commit as u8)
    }

    /// Whether it asks for a visible fraction or size.
    pub fn is_of_sizes(self) -> bool {
        (Call::VisibleFraction..=Call::EstimateRunVisibleSize).contains(&self)
    }

    /// Whether it samples or plans.
    pub fn is_of_plans(self) -> bool {
        (Call::SampleAnchors..=Call::PlanSubcompactionRanges).contains(&self)
    }

    /// Whether it answers durable intervals, or what one leaves of a range.
    pub fn is_of_progress(self) -> bool {
        self >= Call::FromCompaction
    }

    /// A call that samples or plans, by its number from 1 on.
    pub fn of_plans(number: u8) -> Call {
        Call::ALL[usize::from(Call::EstimateRunVisibleSize as u8 + number)]
    }

    pub fn is_in_indexes(self) -> bool {
        (Call::PartitionPoint..=Call::PartitionsCoveringRange).contains(&self)
    }

    /// Whether the call has a lent buffer for its answer.
    pub fn writes(self) -> bool {
        use Call::*;
        match self {
            Compare | CmpBound | NonEmpty | Contains | CheckImage => false,
            CompactedIntersection | CalculateViewRange => true,
            other => other <= Commit || other >= SampleAnchors,
        }
    }

    /// Whether what it writes is a range with the slices that supply its bounds.
    pub fn joins(self) -> bool {
        use Call::*;
        matches!(
            self,
            Intersect | Union | CompactedIntersection | CalculateViewRange
        )
    }

    /// The names of its slices.
    fn slices(self) -> &'static [&'static str] {
        match self {
            Call::Compare | Call::CmpBound => &["a", "b"],
            Call::NonEmpty | Call::AsPoint => &["range"],
            Call::Contains => &["range", "key"],
            Call::FromPrefix => &["prefix"],
            Call::FromPrefixAndSubrange => &["prefix", "subrange"],
            Call::CheckImage | Call::CompactedEffectiveRange | Call::List => &["image"],
            Call::Commit => &["image", "job", "ids"],
            Call::PartitionsCoveringRange => &["index", "range"],
            Call::IntersectsRange => &["image", "range", "end"],
            call if call.is_in_indexes() => &["index", "key"],
            call if call.is_of_sizes() => &["image"],
            Call::SampleAnchors => &["index", "range"],
            Call::SelectBoundaries => &["anchors"],
            Call::PlanSubcompactionRanges => &["image", "indexes"],
            Call::FromCompaction => &["job"],
            Call::SubtractFrom => &["interval", "range"],
            call if call > Call::Commit => &["image", "range"],
            _ => &["a", "b"],
        }
    }
}

/// A call with its arguments; what it does not have is empty or 0.
#[derive(Clone, Debug)]
pub struct Question {
    pub call: Call,
    /// Two slices, and the id supply or the key of an end bound.
    pub a: Vec<u8>,
    pub b: Vec<u8>,
    pub c: Vec<u8>,
    /// Kinds of bounds, or places of a run and a view; or a setting, and the data end or the least range.
    pub x: u64,
    pub y: u64,
    /// 1 if bounds are starts, or if the test is "at or below"; the kind of an end bound.
    pub number: u8,
    /// Length of the lent buffer.
    pub room: usize,
}

impl Question {
    pub fn new(call: Call, a: &[u8], b: &[u8]) -> Question {
        Question {
            call,
            a: a.to_vec(),
            b: b.to_vec(),
            c: vec![],
            x: 0,
            y: 0,
            number: 0,
            room: 0,
        }
    }

    pub fn on_ranges(call: Call, input: &Input) -> Question {
        Question {
            x: input.x.into(),
            y: input.y.into(),
            number: input.z,
            room: input.room,
            ..Question::new(call, &input.a, &input.b)
        }
    }

    pub fn commit(case: &Case) -> Question {
        Question {
            c: case.ids.clone(),
            room: case.room,
            ..Question::new(Call::Commit, &case.image, &case.job)
        }
    }

    /// A lookup in an index or an image.
    pub fn lookup(buffer: &[u8], asked: &Asked) -> Question {
        let call = Call::of_lookup(asked.call);
        let (b, c) = match call.is_in_indexes() && call != Call::PartitionsCoveringRange {
            true => (&asked.key, &asked.range),
            false => (&asked.range, &asked.key),
        };
        Question {
            c: c.clone(),
            x: asked.run,
            y: asked.view,
            number: asked.number,
            ..Question::new(call, buffer, b)
        }
    }

    /// A call that samples or plans.
    pub fn plan(case: &plans::Case) -> Question {
        Question {
            x: case.setting,
            y: case.number,
            ..Question::new(Call::of_plans(case.call), &case.first, &case.second)
        }
    }

    /// A call on durable intervals.
    pub fn progress(case: &progress::Case) -> Question {
        let call = match case.call {
            progress::FROM_COMPACTION => Call::FromCompaction,
            _ => Call::SubtractFrom,
        };
        Question::new(call, &case.first, &case.second)
    }

    pub fn progress_case(&self) -> progress::Case {
        progress::Case {
            call: match self.call {
                Call::FromCompaction => progress::FROM_COMPACTION,
                _ => progress::SUBTRACT_FROM,
            },
            first: self.a.clone(),
            second: self.b.clone(),
        }
    }

    pub fn plan_case(&self) -> plans::Case {
        plans::Case {
            call: self.call as u8 - Call::EstimateRunVisibleSize as u8,
            setting: self.x,
            number: self.y,
            first: self.a.clone(),
            second: self.b.clone(),
        }
    }

    pub fn asked(&self) -> Asked {
        let (b, c) = (self.b.clone(), self.c.clone());
        let call = self.call;
        let (key, range) = match call.is_in_indexes() && call != Call::PartitionsCoveringRange {
            true => (b, c),
            false => (c, b),
        };
        Asked {
            call: call.lookup().expect("a lookup"),
            run: self.x,
            view: self.y,
            number: self.number,
            key,
            range,
        }
    }

    /// As the answers of the originals are asked for.
    pub fn input(&self) -> Input {
        let call = match self.call {
            Call::Compare => ranges::COMPARE_KEYS,
            Call::CmpBound => ranges::CMP_BOUND,
            Call::NonEmpty => ranges::NON_EMPTY,
            Call::Contains => ranges::CONTAINS,
            Call::AsPoint => ranges::AS_POINT,
            Call::Union => ranges::UNION,
            Call::FromPrefix => ranges::FROM_PREFIX,
            Call::FromPrefixAndSubrange => ranges::FROM_PREFIX_AND_SUBRANGE,
            _ => ranges::INTERSECT,
        };
        Input {
            call,
            x: self.x as u8,
            y: self.y as u8,
            z: self.number,
            room: self.room,
            a: self.a.clone(),
            b: self.b.clone(),
        }
    }

    pub fn case(&self) -> Case {
        Case {
            image: self.a.clone(),
            job: self.b.clone(),
            ids: self.c.clone(),
            room: self.room,
        }
    }

    /// A number that tells questions apart.
    pub fn mark(&self) -> u64 {
        let numbers = [self.x, self.y, self.number.into(), self.room as u64];
        let mut mark = mark(self.call as u64, &self.a);
        mark = self::mark(mark, &self.b);
        mark = self::mark(mark, &self.c);
        numbers.into_iter().fold(mark, mixed)
    }

    /// How much there is to read.
    pub fn size(&self) -> usize {
        self.a.len() + self.b.len() + self.c.len()
    }
}

impl std::fmt::Display for Question {
    fn fmt(&self, to: &mut std::fmt::Formatter) -> std::fmt::Result {
        writeln!(to, "call      {}", self.call.name())?;
        let slices = [&self.a, &self.b, &self.c];
        for (name, bytes) in self.call.slices().iter().zip(slices) {
            writeln!(
                to,
                "{name:9} {} ({} bytes)",
                hexadecimal(bytes),
                bytes.len()
            )?;
        }
        match self.call {
            Call::CmpBound => {
                let of = if self.number == 1 { "starts" } else { "ends" };
                writeln!(to, "kinds     {} and {}, {of}", self.x, self.y)?;
            }
            Call::PartitionPoint => {
                let test = if self.number == 1 {
                    "at or below"
                } else {
                    "below"
                };
                writeln!(to, "test      {test}")?;
            }
            Call::TableIdxCoveringRange | Call::OverlapsRange | Call::EstimateRunVisibleSize => {
                writeln!(to, "place     run {}", self.x)?;
            }
            Call::IntersectsRange => {
                writeln!(to, "places    run {}, view {}", self.x, self.y)?;
                writeln!(to, "end kind  {}", self.number)?;
            }
            Call::CompactedEffectiveRange
            | Call::CompactedIntersection
            | Call::CalculateViewRange
            | Call::VisibleFraction
            | Call::EstimateVisibleSize => {
                writeln!(to, "places    run {}, view {}", self.x, self.y)?;
            }
            Call::SampleAnchors => {
                writeln!(to, "most      {}", self.x)?;
                writeln!(to, "data end  {}", self.y)?;
            }
            Call::SelectBoundaries => {
                writeln!(to, "parts     {}", self.x)?;
                writeln!(to, "least     {}", self.y)?;
            }
            Call::PlanSubcompactionRanges => writeln!(to, "parts     {}", self.x)?,
            _ => {}
        }
        if self.call.writes() {
            writeln!(to, "out       {} bytes", self.room)?;
        }
        Ok(())
    }
}

pub fn hexadecimal(bytes: &[u8]) -> String {
    bytes.iter().map(|byte| format!("{byte:02x}")).collect()
}

/// Bytes and a number before them made into one number.
pub fn mark(before: u64, bytes: &[u8]) -> u64 {
    let mut mark = mixed(before, bytes.len() as u64);
    let mut chunks = bytes.chunks_exact(8);
    for chunk in &mut chunks {
        mark = mixed(mark, u64::from_le_bytes(chunk.try_into().unwrap()));
    }
    let rest = chunks.remainder();
    let last = rest.iter().fold(0, |sum, byte| sum << 8 | u64::from(*byte));
    mixed(mark, last)
}

pub fn mixed(a: u64, b: u64) -> u64 {
    let product = u128::from(a ^ 0x9E37_79B9_7F4A_7C15) * u128::from(b ^ 0xD6E8_FEB8_6659_FD93);
    (product as u64 ^ (product >> 64) as u64).wrapping_add(a.rotate_left(23))
}
