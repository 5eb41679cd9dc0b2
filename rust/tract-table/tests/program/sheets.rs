//! Sheets for the program.

use second::plot::record;
use second::random::Random;
use second::{sheet, Profile};

/// A profile of 4 blocks of 40 cells, 10 of them check cells: payloads of 120 bytes.
pub const SMALL: [usize; 5] = [40, 10, 1, 5, 4];

/// The profile of the longest sheets: payloads of 4,048 bytes.
pub const LONGEST: [usize; 5] = [255, 2, 0, 1, 16];

/// A file's name and its bytes.
pub type File = (String, Vec<u8>);

/// Files with these bytes, named in order.
pub fn files(inputs: impl IntoIterator<Item = Vec<u8>>) -> Vec<File> {
    let named = |(number, input)| (format!("{number}.sheet"), input);
    inputs.into_iter().enumerate().map(named).collect()
}

/// The input of the sheet of a payload, as written.
pub fn written(numbers: [usize; 5], payload: &[u8]) -> Vec<u8> {
    let profile = Profile::from(numbers);
    let mut payload = payload.to_vec();
    payload.resize(profile.depth * profile.k(), 0);
    let mut cells = vec![0; profile.depth * profile.n];
    sheet::write(&profile, &payload, &mut cells).expect("the profile is in range");
    [&numbers.map(|number| number as u8)[..], &cells].concat()
}

/// The inputs of three sheets of one plot each: as written, with a scratch that spot mode refuses, and with mould that scratch mode refuses.
pub fn differently_damaged() -> [Vec<u8>; 3] {
    // h is 5
    let numbers = [40, 10, 1, 8, 4];
    let sheet = |plot| written(numbers, &record(plot, &[3, 32, 2]));
    let [good, mut scratched, mut mouldy] = [1, 2, 3].map(sheet);
    // seven cells of each block in a run
    for cell in &mut scratched[5 + 40..5 + 68] {
        *cell ^= 255;
    }
    // five cells of each block, eight cells apart
    for cell in mouldy[5..].chunks_mut(32).flat_map(|cells| &mut cells[..4]) {
        *cell ^= 255;
    }
    [good, scratched, mouldy]
}

/// The input of a sheet of one plot, of which block 2 has a run of eight cells with so many of them wrong, up to five; h is 5.
pub fn with_run(wrong: usize) -> Vec<u8> {
    let mut input = written([40, 10, 1, 8, 4], &record(7, &[3, 32, 2]));
    for cell in [0, 7, 3, 4, 1].into_iter().take(wrong) {
        input[5 + (20 + cell) * 4 + 2] ^= 255;
    }
    input
}

/// Records of a few plots, of two dozen species.
fn plots(random: &mut Random) -> Vec<u8> {
    let mut payload = Vec::new();
    for number in 1..=random.between(0, 4) {
        let mut pairs: Vec<[u8; 2]> = (0..random.between(0, 6))
            .map(|_| [4 * random.between(1, 24), random.between(1, 200)].map(|value| value as u8))
            .collect();
        pairs.sort();
        pairs.dedup();
        let line = |[species, class]: [u8; 2]| [species, class, random.nonzero()];
        let lines: Vec<u8> = pairs.into_iter().flat_map(line).collect();
        payload.extend(record(number as u16, &lines));
    }
    payload
}

/// The input of a sheet of some plots, now and then with a byte of its payload changed before it was written, or with cells changed after that.
pub fn drawn(random: &mut Random) -> Vec<u8> {
    let mut payload = plots(random);
    if random.between(0, 5) == 0 && !payload.is_empty() {
        let place = random.between(0, payload.len() - 1);
        payload[place] = random.byte();
    }
    let mut input = written(SMALL, &payload);
    let cells = &mut input[5..];
    match random.between(0, 3) {
        0 => {
            let start = random.between(0, 140);
            cells[start..start + random.between(1, 20)].fill(random.byte());
        }
        1 => {
            let count = random.between(1, 18);
            random.change(cells, count);
        }
        _ => {}
    }
    input
}
