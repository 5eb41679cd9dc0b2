//! Kinds of damage beyond the promise of scratch mode, which is a burst of at most h cells of a block.
//! Each kind takes a codeword and gives the cells as they are read.

use tishwabe::Profile;

use crate::draws::Draws;

#[derive(Clone, Copy, Debug, PartialEq, Eq)]
pub enum Damage {
    /// One burst of random bytes, L + 1 to 2r cells.
    Scratch,
    /// h + 1 to r single cells anywhere, each with another value.
    Spots,
    /// One burst of h + 1 to L cells. Its first and last cell are changed, each other one with a chance of so many quarters.
    Faint(usize),
    /// Two codewords whose messages differ in one byte, mixed: each cell is from either with an even chance. The first one is the right one.
    Mixture,
}

impl Damage {
    pub const ALL: [Damage; 6] = [
        Damage::Scratch,
        Damage::Spots,
        Damage::Faint(3),
        Damage::Faint(2),
        Damage::Faint(1),
        Damage::Mixture,
    ];

    /// What the table and the plot call it.
    pub fn label(self) -> &'static str {
        match self {
            Damage::Scratch => "scratch, L + 1 to 2r cells",
            Damage::Spots => "spots, h + 1 to r cells",
            Damage::Faint(3) => "faint scratch, h + 1 to L, 3/4",
            Damage::Faint(2) => "faint scratch, h + 1 to L, 1/2",
            Damage::Faint(_) => "faint scratch, h + 1 to L, 1/4",
            Damage::Mixture => "two codewords mixed",
        }
    }

    /// The cells that are read where the codeword `written` of this message was.
    pub fn read(self, profile: &Profile, message: &[u8], written: &[u8], draws: &mut Draws) -> Vec<u8> {
        let mut cells = written.to_vec();
        match self {
            Damage::Scratch => {
                let length = draws.between(profile.limit() + 1, 2 * profile.r());
                burst(&mut cells, length, draws).copy_from_slice(&draws.bytes(length));
            }
            Damage::Spots => spots(&mut cells, written, draws.between(profile.h() + 1, profile.r()), draws),
            Damage::Faint(quarters) => {
                let length = draws.between(profile.h() + 1, profile.limit());
                faint(burst(&mut cells, length, draws), quarters, draws);
            }
            Damage::Mixture => mix(profile, message, &mut cells, draws),
        }
        cells
    }
}

/// A run of this length anywhere in the block.
fn burst<'a>(cells: &'a mut [u8], length: usize, draws: &mut Draws) -> &'a mut [u8] {
    let start = draws.between(0, cells.len() - length);
    &mut cells[start..start + length]
}

fn spots(cells: &mut [u8], written: &[u8], count: usize, draws: &mut Draws) {
    let mut left = count;
    while left > 0 {
        let cell = draws.below(cells.len());
        if cells[cell] == written[cell] {
            cells[cell] ^= draws.change();
            left -= 1;
        }
    }
}

fn faint(run: &mut [u8], quarters: usize, draws: &mut Draws) {
    let last = run.len() - 1;
    for (i, cell) in run.iter_mut().enumerate() {
        if i == 0 || i == last || draws.quarters(quarters) {
            *cell ^= draws.change();
        }
    }
}

fn mix(profile: &Profile, message: &[u8], cells: &mut [u8], draws: &mut Draws) {
    let (mut message, mut other) = (message.to_vec(), vec![0; cells.len()]);
    message[draws.below(profile.k())] ^= draws.change();
    profile.write_block(&message, &mut other).expect("k bytes and n cells");
    for (cell, other) in cells.iter_mut().zip(other) {
        if draws.quarters(2) {
            *cell = other;
        }
    }
}
