//! How long the proved library takes for whole sheets: written, read clean, read with a scratch of D × h cells, each block's share of
//! which is corrected, and read in spot mode with h spots in each block.

use std::hint::black_box;

use second::random::Random;
use tishwabe::{Mode, Profile};

use crate::timing::{median, nanoseconds};

/// A payload, its sheet, and the sheet with a scratch and with spots.
pub struct Sheet {
    pub payload: Vec<u8>,
    pub clean: Vec<u8>,
    pub scratched: Vec<u8>,
    pub spots: Vec<u8>,
}

/// Sixteen different sheets.
pub fn sheets(profile: Profile) -> Vec<Sheet> {
    let mut random = Random::new(11);
    (0..16).map(|_| sheet(profile, &mut random)).collect()
}

fn sheet(profile: Profile, random: &mut Random) -> Sheet {
    let payload = random.bytes(profile.payload_length());
    let mut clean = vec![0; profile.sheet_length()];
    profile.write_sheet(&payload, &mut clean).expect("the lengths fit");
    let length = profile.depth() * profile.h();
    let start = random.between(0, clean.len() - length);
    let mut scratched = clean.clone();
    for cell in &mut scratched[start..start + length] {
        *cell ^= random.nonzero();
    }
    let mut spots = clean.clone();
    for block in 0..profile.depth() {
        for cell in random.distinct(profile.n(), profile.h()) {
            spots[cell * profile.depth() + block] ^= random.nonzero();
        }
    }
    Sheet {
        payload,
        clean,
        scratched,
        spots,
    }
}

/// Nanoseconds of writing, of reading clean, of reading scratched sheets, and of sheets with spots, of D blocks of n = 255, r = 32.
pub fn measure(depth: usize, rounds: usize) -> [f64; 4] {
    let profile = Profile::new(255, 32, 1, 16, depth).expect("the profile is in range");
    let sheets = sheets(profile);
    let mut written = vec![0; profile.sheet_length()];
    let mut scratch = vec![0; profile.scratch_length()];
    let mut payload = vec![0; profile.payload_length()];
    let mut samples = [const { vec![] }; 4];
    for _ in 0..rounds {
        samples[0].push(nanoseconds(&sheets, |s| {
            assert_eq!(profile.write_sheet(black_box(&s.payload), &mut written), Ok(()))
        }));
        samples[1].push(nanoseconds(&sheets, |s| {
            assert_eq!(
                profile.read_sheet(black_box(&s.clean), &mut scratch, &mut payload),
                Ok(0)
            )
        }));
        samples[2].push(nanoseconds(&sheets, |s| {
            assert_eq!(
                profile.read_sheet(black_box(&s.scratched), &mut scratch, &mut payload),
                Ok(depth)
            )
        }));
        samples[3].push(nanoseconds(&sheets, |s| {
            let sheet = black_box(&s.spots);
            assert_eq!(
                profile.read_sheet_in(Mode::Spots, sheet, &mut scratch, &mut payload),
                Ok(depth)
            )
        }));
    }
    samples.map(median)
}
