//! What the example sheets have in common: their profile, numbers at random, damage, and their files.

use std::path::Path;
use tishwabe::{Error, Profile};

pub const N: usize = 60;
pub const R: usize = 21;
const B: usize = 1;
const LIMIT: usize = 12;
const DEPTH: usize = 8;

pub fn profile() -> Result<Profile, Error> {
    Profile::new(N, R, B, LIMIT, DEPTH)
}

// A small generator of numbers.
pub struct Draw(pub u32);

impl Draw {
    pub fn below(&mut self, most: u32) -> u32 {
        self.0 = self.0.wrapping_mul(1_664_525).wrapping_add(1_013_904_223);
        (self.0 >> 16) % most
    }
}

// Cell i of block d of a sheet.
pub fn cell(i: usize, d: usize) -> usize {
    i * DEPTH + d
}

pub fn written(payload: &[u8]) -> Result<Vec<u8>, Error> {
    let profile = profile()?;
    let mut sheet = vec![0; profile.sheet_length()];
    profile.write_sheet(payload, &mut sheet)?;
    Ok(sheet)
}

// D × h cells in one run overwritten.
pub fn with_scratch(written: &[u8], start: usize) -> Vec<u8> {
    let mut sheet = written.to_vec();
    for (i, cell) in sheet[start..start + DEPTH * (R / 2)].iter_mut().enumerate() {
        *cell = (i * 37 + 11) as u8;
    }
    sheet
}

// h spots in every block, each in a cell of its own tenth of the block: far from any run of L cells.
pub fn with_mould(written: &[u8]) -> Vec<u8> {
    let (mut sheet, h) = (written.to_vec(), R / 2);
    for d in 0..DEPTH {
        for spot in 0..h {
            let i = spot * (N / h) + (d + spot) % (N / h);
            sheet[cell(i, d)] ^= (1 + 23 * spot + 7 * d) as u8;
        }
    }
    sheet
}

// Writes the sheets to the folder that is the program's argument, each after the profile's five bytes.
pub fn write<const COUNT: usize>(sheets: Result<[(&str, Vec<u8>); COUNT], Error>) {
    let folder = std::env::args().nth(1).unwrap_or_else(|| ".".into());
    for (name, sheet) in sheets.expect("the profile and the plots are in range") {
        let mut bytes = [N, R, B, LIMIT, DEPTH].map(|x| x as u8).to_vec();
        bytes.extend(sheet);
        let path = Path::new(&folder).join(format!("{name}.sheet"));
        std::fs::write(&path, bytes).unwrap_or_else(|e| panic!("{}: {e}", path.display()));
    }
}
