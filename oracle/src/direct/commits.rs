//! incremental_progress.rs: decode, call and encode, also one by one.
use super::encode::Room;
use super::{decode, Checked};
use crate::compactor_state::Compaction;
use crate::incremental_progress::IncrementalProgress;
use crate::manifest::ManifestCore;
use slatedb_common::DbRand;

/// An image and a job, decoded.
pub struct Given {
    core: ManifestCore,
    job: Compaction,
}

/// The image after the commit.
pub struct Committed {
    core: ManifestCore,
}

impl Given {
    pub fn decode(image: &[u8], job: &[u8]) -> Checked<Self> {
        Ok(Given {
            core: decode::core(image)?,
            job: decode::job(job)?,
        })
    }

    /// Panics if the supply is used up.
    pub fn commit(&self, ids: &[u8]) -> Checked<Committed> {
        apply(self.core.clone(), &self.job, ids)
    }
}

impl Committed {
    pub fn encode(&self, out: &mut [u8]) -> Checked<usize> {
        let mut room = Room::new(out);
        room.image(&self.core.tree.compacted)?;
        Ok(room.written())
    }
}

/// Stop 9 is the one that the original answers; it panics where 8 stands.
fn apply(mut core: ManifestCore, job: &Compaction, ids: &[u8]) -> Checked<Committed> {
    let rand = DbRand::with_supply(ids);
    let progress = IncrementalProgress::from_compaction(job, &rand);
    progress
        .apply_to_manifest_core(&mut core, job.spec(), &rand)
        .map_err(|_| 9)?;
    Ok(Committed { core })
}

pub fn commit(image: &[u8], job: &[u8], ids: &[u8], out: &mut [u8]) -> Checked<usize> {
    let given = Given::decode(image, job)?;
    apply(given.core, &given.job, ids)?.encode(out)
}
