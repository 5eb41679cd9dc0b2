//! The coders agree on written, clean and damaged blocks. What is not linked is not compared.

use super::*;
use crate::blocks::blocks;

/// Every linked coder that corrects spots on the same blocks: what it reads and what it makes of that, turned lowest cell first, are the same
/// two blocks, so that the cells changed are the same too.
fn agree(shape: Shape, spots: usize) {
    let mut out = vec![0; shape.n];
    for block in blocks(shape, spots, 20) {
        for mut coder in coders(shape) {
            let given = block.given_to(&mut *coder);
            if coder.correct_spots(&given.spots, &mut out).is_some() {
                let [read, corrected] = [&given.spots, &out].map(|cells| turned(coder.highest_first(), cells));
                assert_eq!(
                    (read, corrected),
                    (block.spots.clone(), block.clean.clone()),
                    "{}",
                    coder.name()
                );
            }
        }
    }
}

#[test]
fn coders_agree() {
    if cfg!(not(fec)) {
        println!("skipped: libfec is absent");
    }
    for (n, r, b) in [(255, 16, 1), (255, 32, 0), (255, 64, 112), (60, 20, 254), (3, 2, 0)] {
        let shape = Shape { n, r, b };
        for spots in [0, 1, shape.half()] {
            agree(shape, spots);
        }
    }
}
