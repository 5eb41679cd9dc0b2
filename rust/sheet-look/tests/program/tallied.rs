//! Sheets with plots, some of whose blocks have several candidates, and blocks with many or with overlapping ones. Damage at random hardly gives a block a
//! second candidate, so the blocks are put between codewords, or are long ones with few check cells.

use second::generator::generator;
use second::gf::product;
use second::plot;
use second::random::Random;

use crate::expected::{part_of_codeword, with_payload};

/// Inputs of small sheets full of plots. One to three of their blocks lie between two codewords that differ in one or two message bytes, or have a short
/// scratch or any cells.
pub fn tallied(count: usize) -> Vec<Vec<u8>> {
    let mut random = Random::new(11);
    (0..count).map(|_| draw(&mut random)).collect()
}

fn draw(random: &mut Random) -> Vec<u8> {
    let [r, k, b, depth] = [(3, 7), (4, 12), (0, 254), (2, 8)].map(|(least, most)| random.between(least, most));
    let payload = payload(depth * k, random);
    let mut input = with_payload([r + k, r, b, r - 1, depth].map(|x| x as u8), &payload);
    for _ in 0..random.between(1, 3) {
        let block = random.between(0, depth - 1);
        let scratch = match random.between(0, 9) {
            0 => 0..r + k,
            1 => r - 1..r - 1 + r / 2,
            _ => {
                let (start, cells) = (random.between(0, 1), random.between(2, r - 1));
                part_of_codeword(&mut input, block, start, cells, random.between(1, 7) as u8);
                continue;
            }
        };
        for cell in scratch {
            input[5 + cell * depth + block] = random.byte();
        }
    }
    input
}

/// A payload with as many plots as it takes, of up to three tally lines each.
fn payload(length: usize, random: &mut Random) -> Vec<u8> {
    let (mut payload, mut number) = (vec![0; length], 0);
    loop {
        number += random.between(1, 9);
        let lines: Vec<[u8; 3]> = (0..random.between(0, 3))
            .map(|i| line(3 * i + 1, 3 * i + 3, random))
            .collect();
        if plot::add(&mut payload, number as u16, lines.as_flattened()).is_err() {
            return payload;
        }
    }
}

/// A tally line with one of these species.
fn line(least: usize, most: usize, random: &mut Random) -> [u8; 3] {
    [(least, most), (1, 200), (1, 255)].map(|(least, most)| random.between(least, most) as u8)
}

/// Inputs of blocks full of plots of two tally lines, with four check cells and L = 3. Another line is written over the last one, so that the read message has
/// an accepted payload too. Nearly half of the blocks have two more candidates, by runs before the last line; the payload of such a candidate is accepted if
/// its run has tally lines alone and they still rise.
pub fn filled(count: usize) -> Vec<Vec<u8>> {
    let mut random = Random::new(17);
    (0..count)
        .map(|_| {
            let mut payload = vec![0; 22 * 11];
            for number in 1..=22 {
                let lines = [line(20, 45, &mut random), line(55, 80, &mut random)];
                plot::add(&mut payload, number, lines.as_flattened()).expect("11 bytes are left");
            }
            let n = payload.len() + 4;
            let mut input = with_payload([n, 4, random.between(0, 254), 3, 1].map(|x| x as u8), &payload);
            input[5 + n - 3..].copy_from_slice(&line(81, 99, &mut random));
            input
        })
        .collect()
}

/// An input of two blocks with plots 1 and 2, of which block 1 is tied. Its other codeword differs in its first message byte, where plot 2 has its number, and
/// makes it 0.
pub fn plot_zero() -> Vec<u8> {
    let mut payload = vec![0; 14];
    for number in [1, 2] {
        plot::add(&mut payload, number, &[]).expect("a plot without lines has five bytes");
    }
    let mut input = with_payload([10, 3, 0, 2, 2], &payload);
    part_of_codeword(&mut input, 1, 0, 2, 2);
    input
}

/// Inputs of blocks of any 255 cells with a small r and L = r − 1: there are some 250 runs of L cells, and each reaches a codeword for one block in 256.
pub fn crowded(count: usize) -> Vec<Vec<u8>> {
    let mut random = Random::new(13);
    let draw = |_| {
        let (r, b) = (random.between(4, 6) as u8, random.between(0, 254) as u8);
        [vec![255, r, b, r - 1, 1], random.bytes(255)].concat()
    };
    (0..count).map(draw).collect()
}

/// An input of a block of which two codewords change cell 3 alike, the zero codeword from cell 0 on, and a multiple of the generator by a polynomial of
/// degree 1, up to cell 6, which is zero in cell 3.
pub fn overlapping() -> Vec<u8> {
    let g = generator(0, 5);
    let factor = (1..=255).find(|&factor| product(factor, g[3]) == g[2]);
    let factor = factor.expect("no coefficient is zero");
    let cells = [
        product(factor, g[0]),
        product(factor, g[1]) ^ g[0],
        product(factor, g[2]) ^ g[1],
        9,
    ];
    [&[9, 5, 0, 4, 1], &cells[..], &[0; 5]].concat()
}
