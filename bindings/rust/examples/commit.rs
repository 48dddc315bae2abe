//! A worker wrote lamps 1 to 4 and stopped. What it wrote is committed, and lamp 4, its last key, stays in the old table:
//! more versions of it may still be to come.
//!
//!     cargo run --example commit
use bilqarush::typed::*;
use std::fs::File;
use std::io::Read;

fn main() -> Result<(), Box<dyn std::error::Error>> {
    let old = Table::new(TableId(1), "lamp/1").with_last_key("lamp/8");
    let image = Image::new([Run::new(7, [View::new(ViewId(1), old)])]).to_bytes()?;
    println!("before:\n{}", list_to_string(ImageBytes(&image))?);

    let written = Table::new(TableId(2), "lamp/1").with_last_key("lamp/4");
    let job = Job::new(7, [7])
        .with_part(Part::new(Range::all()).with_output(written))
        .to_bytes()?;
    for range in from_compaction_to_plan(JobBytes(&job))?.ranges {
        println!("durable: {range}\n");
    }

    // New views get ids from fresh random bytes, 10 each.
    let mut ids = [0; 20];
    File::open("/dev/urandom")?.read_exact(&mut ids)?;
    let after = commit_to_vec(ImageBytes(&image), JobBytes(&job), &ids)?;
    print!("after:\n{}", list_to_string(ImageBytes(&after))?);
    Ok(())
}
