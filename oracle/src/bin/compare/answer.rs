//! What a call must do: slatedb's answer in the form that the proved library gives it, or the
//! number of the stop by the second reading of document 01.
use crate::call::{hexadecimal, Call, Question};
use oracle::answers::commits::{self, Deeds};
use oracle::answers::images::{at, effective, listing};
use oracle::answers::lookups::{self, Joint};
use oracle::answers::plans;
use oracle::answers::progress;
use oracle::answers::ranges::{value, Sided, Value};
use oracle::checks::{check_image, key_places, read_range, Checked, PlacedRun, Stop};
use oracle::inputs::{anchors, plan, range_image};
use oracle::{key_of, kind_of, Bound, Range};

/// Bytes of an answer, of which some stand for nothing.
#[derive(Clone, Debug, Default)]
pub struct Bytes {
    pub bytes: Vec<u8>,
    open: Vec<std::ops::Range<usize>>,
}

impl Bytes {
    /// Whether these are the bytes, but for those that stand for nothing.
    pub fn is(&self, other: &[u8]) -> bool {
        if self.open.is_empty() {
            return self.bytes == other;
        }
        let mut other = other.to_vec();
        for open in &self.open {
            other[open.clone()].copy_from_slice(&self.bytes[open.clone()]);
        }
        self.bytes == other
    }

    /// A place and a length, 8 bytes each. The place of no key stands for nothing.
    fn push_place(&mut self, bound: &Bound, place: usize) {
        let from = self.bytes.len();
        let length = key_of(bound).map_or(0, Vec::len);
        self.bytes.extend((place as u64).to_be_bytes());
        self.bytes.extend((length as u64).to_be_bytes());
        if kind_of(bound) == 0 {
            self.open.push(from..from + 8);
        }
    }
}

#[derive(Clone, Debug)]
pub enum Answer {
    Order(i8),
    Is(bool),
    Accepted,
    /// A count or a partition.
    Number(usize),
    Found(Option<usize>),
    Places(usize, usize),
    /// The bits of a part's fraction; none if the table is shown whole.
    Shown(Option<u64>),
    /// A size.
    Size(u64),
    Wrote(Bytes),
}

pub type Expected = Checked<Answer>;

/// The answer, as it is told.
pub fn told(expected: &Expected) -> String {
    match expected {
        Err(stop) => format!("stop {stop}"),
        Ok(Answer::Order(order)) => format!("{order}"),
        Ok(Answer::Is(is)) => format!("{}", u8::from(*is)),
        Ok(Answer::Accepted) => "accepted".into(),
        Ok(Answer::Number(number)) => format!("{number}"),
        Ok(Answer::Found(None)) => "not found".into(),
        Ok(Answer::Found(Some(place))) => format!("found {place}"),
        Ok(Answer::Places(start, end)) => format!("{start}..{end}"),
        Ok(Answer::Shown(None)) => "whole".into(),
        Ok(Answer::Shown(Some(bits))) => told_part(*bits),
        Ok(Answer::Size(size)) => format!("{size}"),
        Ok(Answer::Wrote(Bytes { bytes, open })) => {
            let mut text = format!("{} bytes: {}", bytes.len(), hexadecimal(bytes));
            for open in open {
                text += &format!(" (of which {open:?} stand for nothing)");
            }
            text
        }
    }
}

/// A fraction by its bits, and as a number.
pub fn told_part(bits: u64) -> String {
    format!("part {bits:016x} ({:e})", f64::from_bits(bits))
}

pub fn expected(question: &Question) -> Expected {
    match question.call {
        Call::CheckImage | Call::CompactedEffectiveRange | Call::List => {
            expected_on(&check_image(&question.a), question)
        }
        Call::Commit => {
            let bytes = commits::answer(&question.case(), &mut Deeds::default())?;
            Ok(wrote(bytes))
        }
        call if call.is_of_plans() => expected_plan(&plans::value(&question.plan_case()), question),
        call if call.is_of_progress() => {
            expected_ranges(&progress::value(&question.progress_case()), question)
        }
        call if call > Call::Commit => {
            let known = lookups::value(&question.a, &question.asked());
            expected_lookup(&known, question)
        }
        _ => expected_of(&value(&question.input()), question),
    }
}

pub fn wrote(bytes: Vec<u8>) -> Answer {
    Answer::Wrote(Bytes {
        bytes,
        open: vec![],
    })
}

/// Check 16.
fn fits(bytes: Bytes, room: usize) -> Expected {
    if room < bytes.bytes.len() {
        return Err(16);
    }
    Ok(Answer::Wrote(bytes))
}

/// Of a range call whose answer with room enough is known. It is that of `intersect` for the
/// three calls on an intersection.
pub fn expected_of(known: &Checked<Value>, question: &Question) -> Expected {
    let bytes = match (question.call, known) {
        (_, Err(stop)) => return Err(*stop),
        (Call::IntersectStartKey, Ok(Value::Joined(Some(sided)))) => key_bytes(&sided.range.0),
        (Call::IntersectEndKey, Ok(Value::Joined(Some(sided)))) => key_bytes(&sided.range.1),
        (Call::IntersectStartKey | Call::IntersectEndKey, _) => Bytes::default(),
        (_, Ok(Value::Order(order))) => return Ok(Answer::Order(*order as i8)),
        (_, Ok(Value::Is(is))) => return Ok(Answer::Is(*is)),
        (_, Ok(Value::Point(None) | Value::Joined(None))) => plain(vec![0]),
        (_, Ok(Value::Point(Some(_)))) => point(&read_range(&question.a).unwrap()),
        (_, Ok(Value::Joined(Some(sided)))) => joined(sided, question),
        (_, Ok(Value::Range(range))) => plain(range_image(range)),
    };
    fits(bytes, question.room)
}

fn plain(bytes: Vec<u8>) -> Bytes {
    Bytes {
        bytes,
        open: vec![],
    }
}

fn key_bytes(bound: &Bound) -> Bytes {
    plain(key_of(bound).cloned().unwrap_or_default())
}

fn point(range: &Range) -> Bytes {
    let mut answer = plain(vec![1]);
    answer.push_place(&range.0, key_places(range).0);
    answer
}

/// For each bound its kind, the side that gave it and the place of its key there.
fn joined(sided: &Sided, question: &Question) -> Bytes {
    let given = [&question.a, &question.b].map(|image| key_places(&read_range(image).unwrap()));
    let mut answer = plain(vec![1]);
    let Sided { range, start, end } = sided;
    answer.bytes.extend([kind_of(&range.0), *start]);
    answer.push_place(&range.0, given[usize::from(*start) - 1].0);
    answer.bytes.extend([kind_of(&range.1), *end]);
    answer.push_place(&range.1, given[usize::from(*end) - 1].1);
    answer
}

/// Of a lookup whose answer with room enough is known.
pub fn expected_lookup(known: &Checked<lookups::Value>, question: &Question) -> Expected {
    match known.as_ref().map_err(|stop| *stop)? {
        lookups::Value::Number(number) => Ok(Answer::Number(*number)),
        lookups::Value::Found(found) => Ok(Answer::Found(*found)),
        lookups::Value::Places(start, end) => Ok(Answer::Places(*start, *end)),
        lookups::Value::Is(is) => Ok(Answer::Is(*is)),
        lookups::Value::Shown(bits) => Ok(Answer::Shown(*bits)),
        lookups::Value::Bytes(size) => Ok(Answer::Size(*size)),
        lookups::Value::Joint(None) => fits(plain(vec![0]), question.room),
        lookups::Value::Joint(Some(joint)) => fits(supplied(joint), question.room),
    }
}

/// As `joined`, of bounds that lie in an image and in a range.
fn supplied(joint: &Joint) -> Bytes {
    let mut answer = plain(vec![1]);
    for end in [&joint.start, &joint.end] {
        answer.bytes.extend([kind_of(&end.bound), end.slice]);
        answer.push_place(&end.bound, end.place);
    }
    answer
}

/// Of a call that samples or plans whose answer with room enough is known.
pub fn expected_plan(known: &Checked<plans::Value>, question: &Question) -> Expected {
    let bytes = match known.as_ref().map_err(|stop| *stop)? {
        plans::Value::Anchors(list) => anchors(list),
        plans::Value::Plan(ranges) => plan(ranges),
    };
    fits(plain(bytes), question.room)
}

/// Of a call on durable intervals whose answer with room enough is known.
pub fn expected_ranges(known: &Checked<Vec<Range>>, question: &Question) -> Expected {
    let ranges = known.as_ref().map_err(|stop| *stop)?;
    fits(plain(plan(ranges)), question.room)
}

/// Of a call on an image that was checked.
pub fn expected_on(checked: &Checked<Vec<PlacedRun>>, question: &Question) -> Expected {
    let image = checked.as_ref().map_err(|stop| *stop)?;
    match question.call {
        Call::CheckImage => Ok(Answer::Accepted),
        Call::CompactedEffectiveRange => {
            let run = at(image, question.x).ok_or(9 as Stop)?;
            let placed = at(&run.views, question.y).ok_or(9 as Stop)?;
            let (range, start, end) = effective(placed);
            let mut answer = Bytes::default();
            answer.bytes.push(kind_of(&range.0));
            answer.push_place(&range.0, start);
            answer.bytes.push(kind_of(&range.1));
            answer.push_place(&range.1, end);
            fits(answer, question.room)
        }
        Call::List => fits(plain(listing(image)), question.room),
        _ => panic!("no call on an image alone: {}", question.call.name()),
    }
}
