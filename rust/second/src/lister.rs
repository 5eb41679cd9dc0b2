//! The plot lister: from the bytes of standard input to the bytes of standard output.
//! It reads the sheet, then checks the payload, and prints one line per tally line or only the refusal.

use crate::block::Profile;
use crate::plot::{self, HEADER};
use crate::refusal::{refuse, Refusal, PROFILE_RANGE};
use crate::sheet;

/// The text for this input.
pub fn list(input: &[u8]) -> Vec<u8> {
    let text = match list_plots(input) {
        Ok(text) => text,
        Err(refusal) => format!("refused,{},{}\n", refusal.number, refusal.place),
    };
    text.into_bytes()
}

/// The text for an accepted input: header, tally lines, number of blocks changed.
fn list_plots(input: &[u8]) -> Result<String, Refusal> {
    let Some((&numbers, cells)) = input.split_first_chunk() else {
        return refuse(PROFILE_RANGE, 0);
    };
    let profile = Profile::from(numbers.map(usize::from));
    profile.check()?;
    let mut scratch = vec![0; profile.n];
    let mut payload = vec![0; profile.depth * profile.k()];
    let changed = sheet::read(&profile, cells, &mut scratch, &mut payload)?;
    let mut text = String::from("plot,species,class,count\n");
    for record in plot::records(&payload)? {
        let number = plot::plot_number(&payload, record.start);
        for line in payload[record.start + HEADER..record.end].chunks(3) {
            text += &format!("{number},{},{},{}\n", line[0], line[1], line[2]);
        }
    }
    text += &format!("mended,{changed}\n");
    Ok(text)
}

#[cfg(test)]
mod tests {
    use super::*;
    use crate::cases;

    #[test]
    fn inputs_give_their_texts() {
        for (input, text) in cases::lists() {
            assert_eq!(String::from_utf8(list(&input)).unwrap(), text);
        }
    }
}
