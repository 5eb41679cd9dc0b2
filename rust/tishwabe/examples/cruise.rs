//! Makes the sheets of examples/cruise: a cruise of a dozen plots, the same sheet scratched within the promise, one with a torn block,
//! one with a tied block, one with a thin block, and one with mould. Each file is an input of the plot lister: the profile's five bytes, then the
//! sheet.
//!
//! `cargo run --offline --example cruise -- FOLDER` writes them.

mod film;

use film::{cell, profile, with_mould, with_scratch, written, Draw, N, R};
use tishwabe::{add, Error};

// A stand of beech, oak and spruce (species 1, 2, 5), diameter classes in centimetres, counts from a small generator.
fn payload() -> Result<Vec<u8>, Error> {
    let mut payload = vec![0; profile()?.payload_length()];
    let mut draw = Draw(2026);
    for plot in 0..12u16 {
        let mut lines = Vec::new();
        for species in [1u8, 2, 5] {
            let class = 14 + 2 * draw.below(20) as u8;
            lines.extend([species, class, 1 + draw.below(9) as u8]);
            lines.extend([species, class + 4, 1 + draw.below(6) as u8]);
        }
        add(&mut payload, 101 + 3 * plot, &lines)?;
    }
    Ok(payload)
}

fn sheets() -> Result<[(&'static str, Vec<u8>); 6], Error> {
    let written = written(&payload()?)?;
    // block 3 wrong in cells far apart
    let mut uncorrectable = written.clone();
    for i in [2, 19, 31, 44, 58] {
        uncorrectable[cell(i, 3)] ^= 0x5A;
    }
    // half of a codeword of 22 cells added to block 5: two codewords are eleven cells away. The written block of the message 1, 0, 0, ..
    // is the generator.
    let mut message = vec![0; N - R];
    message[0] = 1;
    let mut generator = vec![0; N];
    profile()?.write_block(&message, &mut generator)?;
    let mut ambiguous = written.clone();
    for (i, value) in generator[..11].iter().enumerate() {
        ambiguous[cell(i, 5)] ^= value;
    }
    // block 6 wrong in half of twelve cells, which is more than r/2
    let mut sparse = written.clone();
    for i in [20, 22, 25, 26, 29, 31] {
        sparse[cell(i, 6)] ^= 0x5A;
    }
    Ok([
        ("mould", with_mould(&written)),
        ("scratched", with_scratch(&written, 133)),
        ("written", written),
        ("torn", uncorrectable),
        ("tied", ambiguous),
        ("thin", sparse),
    ])
}

fn main() {
    film::write(sheets());
}
