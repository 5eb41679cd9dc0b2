//! A plain coder over tables of powers and logarithms, as text books have it: division by the generator with a loop over its r
//! coefficients for each cell. Tables and generator are made once, outside the timed part. It writes and checks only.

use crate::coder::Coder;
use crate::Shape;
use second::generator::generator;

pub struct Table {
    r: usize,
    power: [u8; 510],
    logarithm: [u16; 256],
    /// The generator's low r coefficients, as logarithms; none of them is zero.
    generator: Vec<u16>,
    register: Vec<u8>,
}

impl Table {
    pub fn new(shape: Shape) -> Table {
        let mut power = [0u8; 510];
        let mut logarithm = [0u16; 256];
        let mut value = 1u16;
        for (exponent, entry) in power.iter_mut().enumerate() {
            *entry = value as u8;
            if exponent < 255 {
                logarithm[usize::from(value)] = exponent as u16;
            }
            value <<= 1;
            if value > 255 {
                value ^= 0x11D;
            }
        }
        let generator = generator(shape.b, shape.r)[..shape.r]
            .iter()
            .map(|&c| logarithm[usize::from(c)])
            .collect();
        Table {
            r: shape.r,
            power,
            logarithm,
            generator,
            register: vec![0; shape.r],
        }
    }

    /// What division leaves of the message cells moved up by r.
    fn divide(&mut self, message: &[u8]) {
        let r = self.r;
        self.register.fill(0);
        for &cell in message.iter().rev() {
            let feedback = cell ^ self.register[r - 1];
            self.register.copy_within(..r - 1, 1);
            self.register[0] = 0;
            if feedback != 0 {
                let exponent = self.logarithm[usize::from(feedback)];
                for (cell, &coefficient) in self.register.iter_mut().zip(&self.generator) {
                    *cell ^= self.power[usize::from(exponent + coefficient)];
                }
            }
        }
    }
}

impl Coder for Table {
    fn name(&self) -> &'static str {
        "tables"
    }

    fn write(&mut self, message: &[u8], cells: &mut [u8]) {
        self.divide(message);
        cells[..self.r].copy_from_slice(&self.register);
        cells[self.r..].copy_from_slice(message);
    }

    fn check(&mut self, cells: &[u8]) -> bool {
        self.divide(&cells[self.r..]);
        cells[..self.r] == self.register[..]
    }

    fn correct(&mut self, _read: &[u8], _out: &mut [u8]) -> Option<bool> {
        None
    }

    fn correct_spots(&mut self, _read: &[u8], _out: &mut [u8]) -> Option<bool> {
        None
    }
}
