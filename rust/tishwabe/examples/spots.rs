//! Lists a sheet in spot mode: the input is that of the plot lister, the profile's five bytes and then the sheet, and so is the text.
//!
//! `cargo run --offline --example spots < ../../examples/cruise/mould.sheet`

use std::io::{self, Read};
use tishwabe::{list, list_refusal, Error, Mode, Profile};

/// The lister's text for this input, read in spot mode.
fn listed(input: &[u8]) -> Result<String, Error> {
    let Some((&numbers, sheet)) = input.split_first_chunk() else {
        return Err(Error::BadProfile);
    };
    let [n, r, b, limit, depth] = numbers.map(usize::from);
    let profile = Profile::new(n, r, b, limit, depth)?;
    let mut scratch = vec![0; profile.scratch_length()];
    let mut payload = vec![0; profile.payload_length()];
    let changed = profile.read_sheet_in(Mode::Spots, sheet, &mut scratch, &mut payload)?;
    Ok(list(&payload, changed))
}

fn main() -> io::Result<()> {
    let mut input = Vec::new();
    io::stdin().read_to_end(&mut input)?;
    print!("{}", listed(&input).unwrap_or_else(list_refusal));
    Ok(())
}
