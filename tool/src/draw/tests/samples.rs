//! Images and jobs that are drawn, and a source of random ones.
use bilqarush::typed::{
    commit_to_vec, Image, ImageBytes, Job, JobBytes, Part, Range, Run, Stop, Table, TableId, View,
    ViewId,
};

pub(super) fn table(id: u128, first: impl AsRef<[u8]>, last: impl AsRef<[u8]>) -> Table {
    Table::new(TableId(id), first).with_last_key(last)
}

/// A view of all of a table.
pub(super) fn whole(table: Table) -> View {
    View::new(ViewId(table.id.0), table)
}

/// The image after a commit, by ids that do not change.
pub(super) fn committed(image: &Image, job: &Job) -> Result<Image, Stop> {
    let ids: Vec<u8> = (0..=255).cycle().take(4_000).collect();
    let (image, job) = (image.to_bytes()?, job.to_bytes()?);
    let after = commit_to_vec(ImageBytes(&image), JobBytes(&job), &ids)?;
    Ok(Image::from_bytes(&after)?)
}

/// The image of the program `demo`: run 7 with the old table 1, and run 9 with table 2.
pub(super) fn before() -> Image {
    Image::new([
        Run::new(7, [whole(table(1, "a", "z"))]),
        Run::new(9, [whole(table(2, "c", "x"))]),
    ])
}

fn first_part() -> Part {
    let part = Part::new(Range::new(.."m"));
    part.with_output(table(0x11, "a", "e"))
        .with_output(table(0x12, "f", "h"))
}

fn second_part() -> Part {
    Part::new(Range::new("m"..)).with_output(table(0x21, "m", "p"))
}

fn job(first: Part, second: Part) -> Job {
    Job::new(7, [7, 9]).with_part(first).with_part(second)
}

/// The worker stopped: both parts are unfinished.
pub(super) fn half_way() -> Job {
    job(first_part(), second_part())
}

/// One output more of each part, and the second is completed.
pub(super) fn further() -> Job {
    let first = first_part().with_output(table(0x13, "h", "k"));
    let second = second_part().with_output(table(0x22, "q", "y"));
    job(first, second.complete())
}

/// Both are completed, the first with one output more.
pub(super) fn completed() -> Job {
    let mut job = further();
    job.parts[0].outputs.push(table(0x14, "k", "l"));
    job.parts[0].completed = true;
    job
}

/// Numbers that are the same in each run of the tests.
pub(super) struct Random(pub(super) u64);

impl Random {
    pub(super) fn below(&mut self, most: usize) -> usize {
        self.0 ^= self.0 << 13;
        self.0 ^= self.0 >> 7;
        self.0 ^= self.0 << 17;
        (self.0 >> 20) as usize % most
    }

    /// Keys in order, of which some are empty, binary, long or neighbours.
    pub(super) fn keys(&mut self, most: usize) -> Vec<Vec<u8>> {
        let count = 2 + self.below(most);
        let mut keys: Vec<Vec<u8>> = (0..count).map(|_| self.key()).collect();
        let neighbour = [keys[0].as_slice(), &[0]].concat();
        keys.push(neighbour);
        keys.sort();
        keys.dedup();
        keys
    }

    fn key(&mut self) -> Vec<u8> {
        let letter = |random: &mut Random| b"abcdefgh\0\xFF 0x#-"[random.below(15)];
        let length = [0, 1, 1, 1, 2, 3, 9, 40][self.below(8)];
        (0..length).map(|_| letter(self)).collect()
    }

    /// Two places below a count, the first not behind the second.
    pub(super) fn pair(&mut self, count: usize) -> (usize, usize) {
        let (a, b) = (self.below(count), self.below(count));
        (a.min(b), a.max(b))
    }
}
