//! The profiles, the rows of the table, and how often each verdict comes up in so many random blocks.
//! A block's draws depend on its row and its number alone, so the figures do too.

use std::thread;
use tishwabe::Profile;

use crate::damage::Damage;
use crate::draws::Draws;
use crate::verdict::{verdict, Verdict};

/// n, r and L. The first is the smallest r for which a run can be thin at all (4 cells, 2 of them changed), and the one for which the rule can do most; the
/// second is a short block read with the largest L; the third is a usual block with L one less than the largest.
const SHAPES: [(usize, usize, usize); 3] = [(255, 5, 4), (60, 8, 7), (255, 32, 30)];

/// The profiles, with starting power 1 and depth 1.
pub fn profiles() -> [Profile; 3] {
    SHAPES.map(|(n, r, limit)| Profile::new(n, r, 1, limit, 1).expect("the shapes are in range"))
}

/// How often each verdict came up.
#[derive(Clone, Copy, Debug, Default, PartialEq, Eq)]
pub struct Tally {
    pub uncorrectable: u64,
    pub ambiguous: u64,
    pub sparse_right: u64,
    pub sparse_wrong: u64,
    pub right: u64,
    pub wrong: u64,
}

impl Tally {
    fn count(&mut self, verdict: Verdict) {
        *match verdict {
            Verdict::Uncorrectable => &mut self.uncorrectable,
            Verdict::Ambiguous => &mut self.ambiguous,
            Verdict::Sparse { right: true } => &mut self.sparse_right,
            Verdict::Sparse { right: false } => &mut self.sparse_wrong,
            Verdict::Repaired { right: true } => &mut self.right,
            Verdict::Repaired { right: false } => &mut self.wrong,
        } += 1;
    }

    fn plus(self, other: Tally) -> Tally {
        Tally {
            uncorrectable: self.uncorrectable + other.uncorrectable,
            ambiguous: self.ambiguous + other.ambiguous,
            sparse_right: self.sparse_right + other.sparse_right,
            sparse_wrong: self.sparse_wrong + other.sparse_wrong,
            right: self.right + other.right,
            wrong: self.wrong + other.wrong,
        }
    }

    pub fn blocks(&self) -> u64 {
        self.uncorrectable + self.ambiguous + self.sparse() + self.right + self.wrong
    }

    /// Refused by the rule.
    pub fn sparse(&self) -> u64 {
        self.sparse_right + self.sparse_wrong
    }

    /// Repaired rightly if there were no such rule.
    pub fn right_without(&self) -> u64 {
        self.right + self.sparse_right
    }

    /// Repaired wrongly if there were no such rule.
    pub fn wrong_without(&self) -> u64 {
        self.wrong + self.sparse_wrong
    }
}

/// A row of the table.
pub struct Row {
    pub profile: Profile,
    pub damage: Damage,
    pub tally: Tally,
}

/// A block as it was written, and as it is read.
pub fn damaged(profile: &Profile, damage: Damage, mut draws: Draws) -> (Vec<u8>, Vec<u8>) {
    let message = draws.bytes(profile.k());
    let mut written = vec![0; profile.n()];
    profile
        .write_block(&message, &mut written)
        .expect("k bytes and n cells");
    let read = damage.read(profile, &message, &written, &mut draws);
    (written, read)
}

/// Every profile with every kind of damage, so many blocks each.
pub fn rows(blocks: u64) -> Vec<Row> {
    let kinds = profiles()
        .into_iter()
        .flat_map(|p| Damage::ALL.map(|damage| (p, damage)));
    (0u64..)
        .zip(kinds)
        .map(|(row, (profile, damage))| Row {
            profile,
            damage,
            tally: tally(&profile, damage, row, blocks),
        })
        .collect()
}

/// One row's blocks, shared out among the processors.
fn tally(profile: &Profile, damage: Damage, row: u64, blocks: u64) -> Tally {
    let threads = thread::available_parallelism().map_or(1, |count| count.get());
    let part = |first: usize| {
        let mut tally = Tally::default();
        for block in (first as u64..blocks).step_by(threads) {
            let (written, read) = damaged(profile, damage, Draws::new(row, block));
            tally.count(verdict(profile, &written, &read));
        }
        tally
    };
    thread::scope(|scope| {
        let running: Vec<_> = (0..threads).map(|first| scope.spawn(move || part(first))).collect();
        running
            .into_iter()
            .map(|thread| thread.join().expect("the simulation holds"))
            .fold(Tally::default(), Tally::plus)
    })
}
