//! Lookups: views in a run, blocks in an index.
use super::places::refused_at;
use super::{Command, TEXT};
use crate::args::Args;
use crate::failure::Failure;
use crate::input::{Input, Inputs};
use crate::kind::Kind;
use bilqarush::typed::{ImageBytes, RangeBytes, Stop};

pub mod blocks;
pub mod keeps;
pub mod key;
pub mod meets;
pub mod overlaps;
pub mod reads;
pub mod views;

/// What a lookup in a run is given.
struct InRun {
    image: Input,
    run: usize,
    range: Input,
}

impl InRun {
    /// IMAGE RUN RANGE.
    fn read(args: &Args) -> Result<InRun, Failure> {
        args.between(3, 4)?;
        let run = args.place(1, "RUN")?;
        let range = args.range(2)?;
        let image = image(args)?;
        Ok(InRun { image, run, range })
    }

    fn bytes(&self) -> (ImageBytes<'_>, RangeBytes<'_>) {
        (ImageBytes(&self.image.bytes), RangeBytes(&self.range.bytes))
    }

    fn refused(&self, stop: Stop) -> Failure {
        refused_at(stop, &[&self.image, &self.range], self.run, None)
    }
}

/// What a lookup in a view is given.
struct InView {
    in_run: InRun,
    view: usize,
}

impl InView {
    /// IMAGE RUN VIEW, with the range that stands at a place.
    fn read(args: &Args, range: Input) -> Result<InView, Failure> {
        let run = args.place(1, "RUN")?;
        let view = args.place(2, "VIEW")?;
        let image = image(args)?;
        let in_run = InRun { image, run, range };
        Ok(InView { in_run, view })
    }

    fn refused(&self, stop: Stop) -> Failure {
        let InRun { image, run, range } = &self.in_run;
        refused_at(stop, &[image, range], *run, Some(self.view))
    }
}

fn image(args: &Args) -> Result<Input, Failure> {
    Inputs::new(args.has("--text")).read(Kind::Image, args.file(0))
}
