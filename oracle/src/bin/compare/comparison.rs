//! The comparison of one input after the other, up to the first difference.
use crate::answer::{expected, told, Expected};
use crate::call::{Call, Question};
use crate::lent::Lent;
use crate::tally::Tally;
use crate::wrong::Wrong;
use oracle::answers::commits::Case;
use oracle::{guarded, OracleError};
use std::panic::resume_unwind;
use std::sync::atomic::{AtomicUsize, Ordering};

/// What differs.
pub enum Difference {
    /// One call.
    Call(Box<Question>),
    /// What a list of commits leaves, by these steps.
    List(Vec<Case>, String),
    /// A panic outside of any call.
    Panic(String),
}

/// Thrown to leave the making of inputs; the difference stands in the comparison.
pub struct Stopped;

pub struct Comparison<'a> {
    pub lent: Lent,
    pub tally: Tally,
    pub difference: Option<Difference>,
    /// The number of this shard, and the least that has found a difference.
    pub shard: usize,
    pub least: &'a AtomicUsize,
    asked: u64,
}

impl<'a> Comparison<'a> {
    pub fn new(shard: usize, least: &'a AtomicUsize, wrong: Option<Wrong>) -> Comparison<'a> {
        Comparison {
            lent: Lent::new(wrong),
            tally: Tally::default(),
            difference: None,
            shard,
            least,
            asked: 0,
        }
    }

    /// Asks both, and hands on what the answer must be.
    pub fn ask(&mut self, question: &Question) -> Expected {
        let expected = self.sure(question, || expected(question));
        self.compare(question, &expected);
        expected
    }

    /// Asks the proved library, where it is known what the answer must be.
    pub fn compare(&mut self, question: &Question, expected: &Expected) {
        self.lent.ask(question);
        if self.lent.fault(question, expected).is_some() {
            self.stop(Difference::Call(Box::new(question.clone())));
        }
        let stop = expected.as_ref().err().copied().unwrap_or(0);
        self.tally.count(question.call, stop, self.lent.mark);
        if question.call.is_on_ranges() {
            self.tally.ranges.push(self.lent.mark);
        }
        if question.call.is_of_plans() {
            self.tally.planned.push(self.lent.mark);
        } else if question.call.is_of_progress() {
            self.tally.progress.push(self.lent.mark);
        } else if question.call.is_of_sizes() {
            self.tally.sizes.push(self.lent.mark);
        } else if question.call.lookup().is_some() {
            self.tally.lookups.push(self.lent.mark);
        }
        self.leave_if_needless();
    }

    /// Whether the self-test is about another call.
    pub fn skips(&self, call: Call) -> bool {
        self.lent.wrong.is_some_and(|wrong| wrong.call != call)
    }

    /// Runs what must not panic on this question.
    pub fn sure<T>(&mut self, question: &Question, f: impl FnOnce() -> T) -> T {
        match guarded(f) {
            Ok(value) => value,
            Err(_) => self.stop(Difference::Call(Box::new(question.clone()))),
        }
    }

    pub fn stop(&mut self, difference: Difference) -> ! {
        self.difference = Some(difference);
        self.least.fetch_min(self.shard, Ordering::Relaxed);
        resume_unwind(Box::new(Stopped))
    }

    /// A difference in a shard before this one is reported in any case.
    fn leave_if_needless(&mut self) {
        self.asked += 1;
        if self.asked % 256 == 0 && self.least.load(Ordering::Relaxed) < self.shard {
            resume_unwind(Box::new(Stopped))
        }
    }
}

/// A difference as it is reported: what differs, slatedb's answer and ours.
pub struct Found {
    pub what: String,
    pub slatedb: String,
    pub ours: String,
}

/// Asks both again.
pub fn find(question: &Question, lent: &mut Lent) -> Option<Found> {
    lent.ask(question);
    let ours = lent.told(question.call);
    match guarded(|| expected(question)) {
        Ok(expected) => lent.fault(question, &expected).map(|what| Found {
            what,
            slatedb: told(&expected),
            ours,
        }),
        Err(OracleError::Panic { message, at }) => Some(Found {
            what: "a panic".into(),
            slatedb: format!("panic at {at}: {message}"),
            ours,
        }),
        Err(other) => Some(Found {
            what: "a panic".into(),
            slatedb: format!("{other:?}"),
            ours,
        }),
    }
}
