//! Splits the keys of an index into ranges of about equal bytes, which together hold each key exactly once.
//!
//!     cargo run --example plan
use bilqarush::typed::*;

fn main() -> Result<(), Stop> {
    // A block of 4,096 bytes for each of 16 lamps; the data end at 65,536.
    let blocks = (0..16).map(|lamp| (4096 * lamp, format!("lamp/{lamp:02}")));
    let index = Index::new(blocks).to_bytes()?;
    let all = Range::all().to_bytes()?;
    let anchors = sample_anchors_to_anchors(128, 65536, IndexBytes(&index), RangeBytes(&all))?;
    let anchors = anchors.to_bytes()?;
    for range in select_boundaries_to_plan(4, 0, AnchorsBytes(&anchors))?.ranges {
        println!("{range}");
    }
    Ok(())
}
