//! Makes the sheets of examples/tract: three sheets of eight plots each, one as written, one scratched within the promise, and one with mould. Each
//! file is an input of the plot lister: the profile's five bytes, then the sheet.
//!
//! `cargo run --offline --example tract -- FOLDER` writes them.

mod film;

use film::{profile, with_mould, with_scratch, written, Draw};
use tishwabe::{add, Error};

// Eight plots with beech, oak and spruce (species 1, 2, 5) on each, and pine and maple (9, 14) on some.
fn sheet(first_plot: u16, seed: u32) -> Result<Vec<u8>, Error> {
    let mut payload = vec![0; profile()?.payload_length()];
    let mut draw = Draw(seed);
    for plot in first_plot..first_plot + 8 {
        let mut lines = Vec::new();
        for (species, one_in) in [(1u8, 1), (2, 1), (5, 1), (9, 3), (14, 5)] {
            if draw.below(one_in) == 0 {
                let class = 13 + 2 * draw.below(18) as u8;
                lines.extend([species, class, 2 + draw.below(9) as u8]);
                lines.extend([species, class + 12, 1 + draw.below(5) as u8]);
            }
        }
        add(&mut payload, plot, &lines)?;
    }
    written(&payload)
}

fn sheets() -> Result<[(&'static str, Vec<u8>); 3], Error> {
    Ok([
        ("ridge", sheet(101, 1987)?),
        ("creek", with_scratch(&sheet(201, 1988)?, 250)),
        ("hollow", with_mould(&sheet(301, 1989)?)),
    ])
}

fn main() {
    film::write(sheets());
}
