//! The plot lister's text.

use second::random::Random;
use tishwabe::ffi;

/// The text for an input with both: by the library's one function for it, in a buffer of any length too, and by the library's parts.
pub fn list(random: &mut Random, input: &[u8]) -> String {
    let due = String::from_utf8(second::lister::list(input)).expect("text");
    assert_eq!(tishwabe::list_input(input), due, "{input:?}");
    in_a_buffer(random, input, due.as_bytes());
    assert_eq!(by_parts(input).unwrap_or_else(tishwabe::list_refusal), due, "{input:?}");
    due
}

/// The text goes into a buffer shorter or longer than itself as far as both go, and the other bytes are left.
fn in_a_buffer(random: &mut Random, input: &[u8], due: &[u8]) {
    let length = random.between(0, 2 * due.len());
    let mut text = random.bytes(length);
    let mut left = text.clone();
    let written = length.min(due.len());
    left[..written].copy_from_slice(&due[..written]);
    assert_eq!(
        (ffi::list_input(input, &mut text), &text),
        (written, &left),
        "{input:?} {length}"
    );
}

fn by_parts(input: &[u8]) -> Result<String, tishwabe::Error> {
    let Some((&[n, r, b, limit, depth], cells)) = input.split_first_chunk() else {
        return Err(tishwabe::Error::BadProfile);
    };
    let p = tishwabe::Profile::new(n.into(), r.into(), b.into(), limit.into(), depth.into())?;
    let mut scratch = vec![0; p.scratch_length()];
    let mut payload = vec![0; p.payload_length()];
    let changed = p.read_sheet(cells, &mut scratch, &mut payload)?;
    Ok(tishwabe::list(&payload, changed))
}
